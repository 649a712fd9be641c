"""Times a harvester over lines in memory, compared with `event_payload`."""

import tempfile

from calls import PROGRAM, RUNS, Call, least, make_program

# the bytes of a line, its line feed not counted, and how many lines there are
LINE, LINES = 120, 400_000

HEAD = f"""
## `Harvester::turn`

The events of a file in memory with lines of {LINE} bytes, which is read 16,384 bytes at a time, compared with `event_payload`
for the same messages. Processor time: the least of {RUNS} alternating runs, less that of a run without a line.

| What | Events a second | Megabytes a second | `event_payload`, payloads a second | Time ratio |
|---|---:|---:|---:|---:|
"""


def harvester_table():
    make_program()
    calls = [Call([PROGRAM, call, LINE], LINES, LINES) for call in ("harvester", "payloads")]
    with tempfile.TemporaryDirectory() as folder:
        event, payload = (run.processor for run in least(calls, folder))
    print(f"{1 / event:>12.0f} events a second, {event / payload:.2f} times event_payload", flush=True)
    rates = f"{1 / event:.0f} | {(LINE + 1) / event / 1e6:.0f} | {1 / payload:.0f}"
    return HEAD + f"| lines of {LINE} bytes | {rates} | {event / payload:.2f} |\n"

"""Times one worker over loopback, beside a bare sender with as many windows in flight."""

import subprocess
import tempfile

from calls import PROGRAM, RUNS, make_program
from transport import make_bare, timed

DEPTHS = [1, 2, 8]
# how many milliseconds late the peer answers, and how many windows are sent to it
PEERS = [(0, 400), (5, 100), (50, 40)]
# the events of a window, and the bytes of an event
WINDOW, EVENT = 2_048, 240

HEAD = f"""
## A worker over loopback

Windows of {WINDOW:,} events of {EVENT} bytes each through one worker, its queue and its box, driven by one thread, compared
with a bare sender (`bench/bare.rs`) that sends the same frames with as many windows in flight. The peer is the same for both
and acknowledges each window with the stated delay. Times are by the clock, the best of {RUNS} alternating runs. The processor
time of the worker includes making its events.

| Windows in flight | The peer answers | Events a second | Bare sender, events a second | Time ratio | Processor time ratio |
|---:|---|---:|---:|---:|---:|
"""


def shipped(command, receiver, folder, events):
    run = timed(command, folder)
    if int(receiver.stdout.readline()) != events:
        raise SystemExit(f"{command} did not bring every event")
    return run


def row(folder, bare, depth, late, windows):
    events = windows * WINDOW
    receiver = subprocess.Popen([bare, "receive", str(2 * RUNS), str(late)], stdout=subprocess.PIPE, text=True)
    try:
        words = [receiver.stdout.readline().strip(), str(depth), str(events)]
        commands = ([PROGRAM, "worker", *words], [bare, "windows", *words, str(EVENT)])
        runs = [[shipped(command, receiver, folder, events) for command in commands] for _ in range(RUNS)]
    finally:
        receiver.terminate()
        receiver.wait()
    (ours, ours_spent), (theirs, theirs_spent) = ([min(one) for one in zip(*of_one)] for of_one in zip(*runs))
    when = f"{late} ms late" if late else "at once"
    print(f"{depth:>6} windows, {when:>10} {events / ours:>12.0f} events a second, {ours / theirs:.2f} times the bare sender's time", flush=True)
    return f"| {depth} | {when} | {events / ours:.0f} | {events / theirs:.0f} | {ours / theirs:.2f} | {ours_spent / theirs_spent:.2f} |\n"


def worker_table():
    make_program()
    with tempfile.TemporaryDirectory() as folder:
        bare = make_bare(folder)
        return HEAD + "".join(row(folder, bare, depth, late, windows) for late, windows in PEERS for depth in DEPTHS)

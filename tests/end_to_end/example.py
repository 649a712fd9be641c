"""The example that stands under examples/: its settings, for logs and a receiver of one's own."""

import program

FOLDER = program.ROOT / "examples"
# what the example says of its user's machine
LOGS = "/var/log/shop"
HOST = "127.0.0.1:5044"


def settings_for(logs, host):
    """The example's settings, for logs in this folder and for this receiver."""
    text = (FOLDER / "beat.toml").read_text()
    for said, meant in ((f'"{LOGS}/', f'"{logs}/'), (f'"{HOST}"', f'"{host}"')):
        if said not in text:
            raise ValueError(f"examples/beat.toml does not say {said}")
        text = text.replace(said, meant)
    return text

#!/usr/bin/env python3
"""What a viewer of a forwarded stream sees, by loss: the table of docs/use/FORWARDING.md.

  tools/measure/forwarding.py

It runs rust/examples/sfu.rs, a simulated publisher, network and viewer; its figures are the same each time, and the page must have
them. Where Chromium, ffmpeg and the libraries of tools/live_server are installed, Chromium also publishes to live_server and watches
from it for 12 s at each loss, with 20 ms a hop; these figures vary. Without them that column is left out. On a busy machine the
camera of Chromium gives fewer frames than its 20 a second: below nine tenths of them, in three calls, the column is left out too.

At 5 % loss the viewer must show at least 95 of 100 frames. In Chromium it may be frozen for 1.6 s, simulated for 3.5 s: the link falls twice.
Needs cargo of 1.85 or later. The last line says what passed; the status is 0 if all passed.
"""
import os
import re
import shutil
import subprocess
import sys

ROOT = os.path.dirname(os.path.dirname(os.path.dirname(os.path.realpath(__file__))))
SERVER = f"{ROOT}/tools/live_server"
LOSSES = (0, 2, 5)
SECONDS = 12
# At 5 % loss: the least part of the frames that is shown, in percent, and the most milliseconds of a frozen picture, by column.
LEAST_SHOWN = 95
MOST_FROZEN = {"`Forwarder`, in Chromium": 1_600, "`Forwarder`, simulated": 3_500}

sys.path.append(SERVER)


def cell(shown, sent, frozen):
    """A cell of the table."""
    return f"{shown}{f' of {sent}' if sent else ''}; {frozen:,} ms"


def simulated():
    """The figures of the example, by loss."""
    ran = subprocess.run(["cargo", "run", "--offline", "--quiet", "--example", "sfu"], cwd=f"{ROOT}/rust", capture_output=True, text=True, check=True)
    lines = re.findall(r"(\d+) %: (\d+) of (\d+) frames shown, \d+ switches, \d+ freezes, (\d+) ms frozen", ran.stdout)
    return {int(loss): (int(shown), int(sent), int(frozen)) for loss, shown, sent, frozen in lines}


def has_browser():
    """Whether Chromium can call live_server here. Builds the server."""
    packages = ["openssl", "libsrtp2", "libmicrohttpd", "libavformat", "libavcodec", "libavutil"]
    if not all(map(shutil.which, ("chromium", "ffmpeg", "ffprobe", "pkg-config"))) or subprocess.run(["pkg-config", "--exists", *packages]).returncode:
        return False
    subprocess.run(["make", "-s", "-C", SERVER, "all"], check=True, stdout=subprocess.DEVNULL)
    return True


def between_browsers():
    """The figures of calls from Chromium to Chromium, by loss, or None if the machine is too busy for them."""
    from servers import call, idle

    found = {}
    for loss in LOSSES:
        it = idle(lambda: call("VP8", loss, SECONDS, "--delay", "20"), 3)
        if it is None:
            return None
        found[loss] = it["shown"], it["sent"], round(1000 * it["frozen"])
    return found


def falls_short(figures, most_frozen):
    """Whether the figures at 5 % are worse than the bounds."""
    shown, sent, frozen = figures[5]
    return shown * 100 < LEAST_SHOWN * sent or frozen > most_frozen


def main():
    columns = {}
    browser = "without a browser"
    if has_browser():
        found = between_browsers()
        browser = "with a browser" if found else "without a browser, for which the machine is too busy"
        columns |= {"`Forwarder`, in Chromium": found} if found else {}
    columns["`Forwarder`, simulated"] = simulated()
    rows = [f"| loss | {' | '.join(columns)} |", "|---" * (len(columns) + 1) + "|"]
    rows += [f"| {loss} % | {' | '.join(cell(*each[loss]) for each in columns.values())} |" for loss in LOSSES]
    print("\n".join(rows))
    with open(f"{ROOT}/docs/use/FORWARDING.md", encoding="utf-8") as page:
        text = page.read()
    faults = [f"{name}: worse than its bound at 5 %" for name, each in columns.items() if falls_short(each, MOST_FROZEN[name])]
    faults += [f"docs/use/FORWARDING.md lacks {cell(*each)!r}" for each in columns["`Forwarder`, simulated"].values() if cell(*each) not in text]
    print("\n".join([*faults, f"forwarding: {browser}: {f'{len(faults)} faults' if faults else 'all passed'}"]))
    return 1 if faults else 0


if __name__ == "__main__":
    sys.exit(main())

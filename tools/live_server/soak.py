#!/usr/bin/env python3
"""A long call: does live_server's memory stay flat?

    ./soak.py 60        for sixty minutes; --program live_server-sanitized for that build

Chromium publishes a small picture, and two pages watch it, over a network that loses 2 %, reorders 1 % and takes 20 ms each way. Each
minute one of the viewers stops and watches again; each ten minutes the publisher stops, and publishes again. A line a minute: what
the server holds. Fails unless the resident memory at the end is at most 5 % above that of the tenth minute, there are no more open
files, and the viewer goes on. Needs Chromium, ffmpeg and ffprobe.
"""

import argparse
import pathlib
import sys
import time

import browsers
from browsers import Failed, require, wait_for
from servers import Server, publisher_of, viewer_of

COLUMNS = ("minute", "resident memory, kB", "open files", "peers", "packets held", "packets in", "packets out", "frames shown", "freezes")


def held_by(it, minute, viewer):
    """A line of the table."""
    process = pathlib.Path("/proc", str(it.process.pid))
    status = dict(line.split(":", 1) for line in (process / "status").read_text().splitlines() if ":" in line)
    stats, shown = it.stats(), viewer.statistic("watch")
    streams = {side: [stream for peer in stats[side] for stream in peer["streams"]] for side in ("publishers", "viewers")}
    return (minute, int(status["VmRSS"].split()[0]), len(list((process / "fd").iterdir())), len(stats["publishers"]) + len(stats["viewers"]),
            sum(each["held"] for each in streams["publishers"]), *(sum(each["packets"] for each in streams[side]) for side in streams),
            shown.get("framesDecoded", 0), shown.get("freezeCount", 0))


def again(page, button):
    """Stops if it runs, and begins again."""
    page.evaluate(f"(state.{button} && $('{button}').click(), $('{button}').click(), 0)")


def soak(minutes, program):
    """The lines of the table, printed as they come."""
    print(f"| {' | '.join(COLUMNS)} |\n{'|---' * len(COLUMNS)}|")
    lines, began = [], time.monotonic()
    with Server("--loss", "2", "--reorder", "1", "--delay", "20", program=program) as it:
        sends = publisher_of(it, "publish=camera&size=160&fps=10&quiet")
        stays, other = viewer_of(it, "watch&quiet"), viewer_of(it, "watch&quiet")
        for minute in range(minutes + 1):
            time.sleep(max(0, began + 60 * minute - time.monotonic()))
            lines.append(held_by(it, minute, stays))
            print(f"| {' | '.join(map(str, lines[-1]))} |", flush=True)
            again(other, "watch")
            if not sends.evaluate("!!state.publish"):  # the machine gave its browser no time, and the connection ended
                again(sends, "publish")
            if minute % 10 == 5:
                before = stays.frames()
                again(sends, "publish")
                wait_for("picture after the publisher came again", lambda: stays.frames() > before + 20)
    require(all(each.faults == "" for each in it.recordings), [each.faults for each in it.recordings])
    return lines


def main():
    reader = argparse.ArgumentParser(description=__doc__, formatter_class=argparse.RawDescriptionHelpFormatter)
    reader.add_argument("minutes", type=int)
    reader.add_argument("--program", default="live_server")
    arguments = reader.parse_args()
    browsers.LIMIT = 300  # this may run beside other work
    try:
        lines = soak(arguments.minutes, arguments.program)
        first, last = lines[min(10, len(lines) - 1)], lines[-1]
        require(last[1] <= 1.05 * first[1], f"{first[1]} kB after ten minutes, {last[1]} kB at the end")
        require(last[2] <= first[2] + 1, f"{first[2]} and {last[2]} open files")
    except Failed as fault:
        print(f"FAILED: {fault}")
        return 1
    print("memory stays flat")
    return 0


if __name__ == "__main__":
    sys.exit(main())

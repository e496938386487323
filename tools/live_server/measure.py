#!/usr/bin/env python3
"""The tables of the documents of live_server, by Chromium on this machine.

    ./measure.py losses [SECONDS [ROW..]]    the table of losses of README.md, beside calls from Chromium to Chromium; or its rows VP8-5, ..
    ./measure.py rates [SECONDS]             the bitrates of Chromium by feedback and loss (docs/use/FEEDBACK.md)

A call of the tables lasts 20 s, if you name no other time. Run it on a machine with idle cores: of the table of losses a call whose
browser sends too few frames is made again, and a row of which five calls were such ones is left out. Needs what test.py needs.
"""

import sys
import time

from relay import direct_call
from servers import Server, call, idle, measured, publisher_of

CODECS, LOSSES = ("VP8", "VP9", "AV1"), (0, 2, 5, 10)
COLUMNS = ("call", "frames sent", "shown", "freezes, s", "kbit/s", "direct: sent", "shown", "freezes, s", "kbit/s", "lost", "requested", "recovered",
           "resent to the viewer", "undecodable", "recorded", "audio lost, recovered", "audio concealed", "first picture, ms")


def seen(figures):
    return f"{figures['sent']} | {figures['shown']} | {figures['freezes']}, {figures['frozen']:.1f} | {figures['rate']:.0f}"


def direct(codec, loss, seconds):
    with Server() as server:
        return measured(*direct_call(server, codec, loss), seconds)


def losses(seconds, *rows):
    """The table of losses, as Markdown."""
    print(f"| {' | '.join(COLUMNS)} |\n{'|---' * len(COLUMNS)}|")
    for codec in CODECS:
        for loss in LOSSES:
            if rows and f"{codec}-{loss}" not in rows:
                continue
            it = idle(lambda: call(codec, 0, seconds, relay_loss=loss))
            other = it and idle(lambda: direct(codec, loss, seconds))
            if not other:
                print(f"{codec}, {loss} %: the machine is too busy", file=sys.stderr, flush=True)
                continue
            print(f"| {codec}, {loss} % | {seen(it)} | {seen(other)} | {it['lost']} | {it['requested']} | {it['recovered']} | {it['resent']} | "
                  f"{it['undecodable']} | {it['recorded']} | {it['audio lost']}, {it['audio recovered']} | {it['concealed']:.1f} % | {it['first']} |", flush=True)


def targets(statistic, seconds):
    """The bitrate that the encoder is given, in kbit/s, each second: what it sends is less if the picture is simple."""
    found = []
    for _ in range(seconds):
        time.sleep(1)
        found.append(statistic().get("targetBitrate", 0) / 1000)
    return found


def rates(seconds):
    """Which bitrate Chromium gives its encoder by the feedback that it gets: in the fourth to sixth second, and at the end."""
    print("| loss | transport-wide | REMB | neither | Chromium to Chromium |\n|---|---|---|---|---|")
    for loss in (0, 2, 5):
        found = []
        for feedback in ("transport", "remb", "none"):
            with Server("--loss", str(loss), "--feedback", feedback) as it:
                page = publisher_of(it, "publish=camera&codec=VP8")
                found.append(targets(lambda: page.statistic("publish"), seconds))
        with Server() as it:
            sends, _ = direct_call(it, "VP8", loss)
            found.append(targets(lambda: sends.statistic("publish"), seconds))
        print(f"| {loss} % | " + " | ".join(f"{sum(each[3:6]) / 3:.0f}, {sum(each[-5:]) / 5:.0f}" for each in found) + " |", flush=True)


def main():
    words = sys.argv[1:]
    if words[:1] in (["losses"], ["rates"]):
        {"losses": losses, "rates": rates}[words[0]](int(words[1]) if words[1:] else 20, *words[2:])
    else:
        print(__doc__)
        return 2
    return 0


if __name__ == "__main__":
    sys.exit(main())

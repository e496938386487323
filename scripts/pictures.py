#!/usr/bin/python3
"""Draws the pictures of docs/pictures as SVG.

  scripts/pictures.py            all of them
  scripts/pictures.py NAME..     those named

  units_under_loss   packets 10 to 15 of three units, by the row UNDER_LOSS of tests/vectors/program_vectors.py, which tests/vectors/process.py
                     runs through the program payload_vectors
  crates             the crates in their layers, by crates.txt: fails where a crate uses a crate of a higher layer
  over_a_copy        time over that of a copy, a dot a case, by the tables of docs/use/PERFORMANCE.md
  beside             time over that of str0m, by a table of docs/use/PERFORMANCE.md, and the recorder beside GStreamer, by its README
  receiver_life      a receiver from its first packet to its end: what arrives, what it reports, what the caller does
  session_life       a session with two senders: what arrives, the stages of its streams, what polls return, what the caller does
  buffer_layout      what a buffer holds: entries, blocks of packets, the ends of rows, the complete frames
  queue_tiers        an insertion into the queue of packets: which entries move, tier by tier
  copies             where the bytes of a frame are copied
  descriptors        the bytes in front of a frame's: VP8, VP9, AV1 and RED, by their RFCs

Needs matplotlib, except for crates: apt-get install python3-matplotlib. The same sources give the same bytes, on one version of
it. Each file has two sets of colours, for light and for dark pages; the reader's browser chooses. The last line of a file is
a digest of its data and of the functions that draw it, which scripts/documents.py compares.
"""
import hashlib
import inspect
import io
import os
import re
import sys
import types

ROOT = os.path.dirname(os.path.dirname(os.path.realpath(__file__)))
sys.path.append(f"{ROOT}/tests/vectors")

import program_vectors  # noqa: E402  (the folder is known only now)

FOLDER = f"{ROOT}/docs/pictures"
# The colours on a light page, and for each the one on a dark page.
INK, FAINT, BLUE, ORANGE, GREEN, RED = "#3a3f45", "#6e757d", "#1f6fb2", "#a85a00", "#2c7a2c", "#c0342c"
DARK = {INK: "#d5dae0", FAINT: "#9aa2ab", BLUE: "#6cb2f0", ORANGE: "#f0a44e", GREEN: "#74c774", RED: "#ff8079"}


def read(path):
    with open(f"{ROOT}/{path}", encoding="utf-8") as it:
        return it.read()


def rows_of_figures():
    """Each case of docs/use/PERFORMANCE.md with its two ratios to a copy, of the tables that have two such columns."""
    tables = [it for it in read("docs/use/PERFORMANCE.md").split("\n\n") if it.split("\n")[0].count("over a copy") == 2]
    return re.findall(r"^\| `([\w-]+)` \| [\d.]+ \| ([\d.]+) \| [\d.]+ \| ([\d.]+) \|$", "\n".join(tables), re.M)


def rows_beside():
    """Each case of docs/use/PERFORMANCE.md with the ratios of its calls to those of str0m."""
    return re.findall(r"^\| (\w[\w. ]*, [\d,]+ bytes) \|(?: [\d,.]+ \|){2} ([\d.]+) \|(?: [\d,.]+ \|){2} ([\d.]+) \|$",
                      read("docs/use/PERFORMANCE.md"), re.M)


def rows_of_recorder():
    """Programs over one capture, each with its packets a second of processor time, by the recorder's README."""
    return re.findall(r"^\| ([^|]+) \| ([\d,]+) \| [\d.]+ s \| [\d.]+ s \|$", read("tools/rtp_record/README.md"), re.M)


def rows_into():
    """Each case of docs/use/PERFORMANCE.md with the ratio of packetize_into to a plain memcpy."""
    return dict(re.findall(r"^\| `([\w-]+)` \| [\d.]+ \| [\d.]+ \| ([\d.]+) \| [\d.]+ \|$", read("docs/use/PERFORMANCE.md"), re.M))


def drawn_by(name):
    """The sources of what draws a picture: its function, and each function and constant of this file that it reaches."""
    found, left = dict.fromkeys(("ROOT", "FOLDER", "read", "made_of"), ""), [name]
    while left:
        word = left.pop()
        it = globals().get(word)
        if word in found or it is None or isinstance(it, types.ModuleType):
            continue
        found[word] = inspect.getsource(it) if callable(it) else repr(it)
        codes = [it.__code__] if callable(it) else []
        while codes:
            code = codes.pop()
            left += code.co_names
            codes += [each for each in code.co_consts if isinstance(each, types.CodeType)]
    return sorted(found.items())


def made_of(name):
    """The last line of a picture: a digest of its data and of what draws it."""
    data = {
        "units_under_loss": lambda: repr(program_vectors.UNDER_LOSS),
        "crates": lambda: read("crates.txt"),
        "over_a_copy": lambda: repr((rows_of_figures(), rows_into())),
        "beside": lambda: repr((rows_beside(), rows_of_recorder())),
    }.get(name, lambda: "")()
    digest = hashlib.sha256(f"{drawn_by(name)}{data}".encode()).hexdigest()[:16]
    return f"<!-- made of {digest} by scripts/pictures.py -->\n"


def plotting():
    import matplotlib

    matplotlib.use("svg")
    import matplotlib.pyplot as pyplot

    matplotlib.rcParams.update({
        "svg.hashsalt": "codec_payload", "svg.fonttype": "none", "savefig.transparent": True,
        "font.family": "sans-serif", "font.size": 11,
        **{it: INK for it in ("text.color", "axes.edgecolor", "axes.labelcolor", "xtick.color", "ytick.color")},
    })
    return pyplot


def themed(text):
    """A picture with a style sheet that replaces each colour on a dark page."""
    rules = []
    for light, dark in DARK.items():
        for what in ("fill", "stroke"):
            rules.append(f'[{what}="{light}"], [style*="{what}: {light}"] {{ {what}: {dark} !important }}')
    style = "<style>@media (prefers-color-scheme: dark) {\n" + "\n".join(rules) + "\n}</style>\n"
    return re.sub(r"(<svg\b[^>]*>\n)", lambda found: found[1] + style, text, count=1)


def write(name, text):
    text = themed(text)
    with open(f"{FOLDER}/{name}.svg", "w", encoding="utf-8") as it:
        it.write(text + made_of(name))
    print(f"docs/pictures/{name}.svg: {len(text)} bytes")


def keep(name, figure):
    held = io.StringIO()
    figure.savefig(held, format="svg", metadata={"Date": None, "Creator": None}, bbox_inches="tight", pad_inches=0.08)
    write(name, "\n".join(it.rstrip() for it in held.getvalue().split("\n")))


def bare(pyplot, width, height):
    """A figure without axes, whose units are tenths of an inch, from the upper left corner down."""
    figure = pyplot.figure(figsize=(width / 10, height / 10))
    axes = figure.add_axes((0, 0, 1, 1))
    axes.set(xlim=(0, width), ylim=(height, 0))
    axes.axis("off")
    return figure, axes


def box(axes, left, top, width, height, text="", color=INK, fill=None, **words):
    from matplotlib.patches import FancyBboxPatch

    axes.add_patch(FancyBboxPatch(
        (left, top), width, height, boxstyle="round,pad=0,rounding_size=0.5", linewidth=1.4, edgecolor=color,
        facecolor=fill or "none", alpha=None))
    axes.text(left + width / 2, top + height / 2, text, ha="center", va="center", **{"color": color, **words})


def played():
    """The run of the row: what is printed for each packet, and of each step what it is, what is held and what it answers."""
    row = program_vectors.UNDER_LOSS
    sent = [line.split() for line in row.output.split("\n") if line.startswith("packet ")]
    answers = [line.split() for line in row.output.split("\n") if re.match(r"none|unit|fault", line)]
    numbers = [int(it[1]) for it in sent]
    held, cutoff, steps = [], 0, []
    for line in row.given.split("\n"):
        words = line.split()
        if words[:1] == ["push"]:
            number = numbers[int(words[1])]
            held = sorted({*held, number}) if number > cutoff else held
            steps.append(("push", number, held, None))
        elif words[:1] == ["pop"]:
            answer = answers.pop(0)
            if answer[0] == "unit":
                cutoff = int(answer[2])
                held = [it for it in held if it > cutoff]
            steps.append(("pop", None, held, answer))
    lost = [it for it in numbers if it not in {number for _, number, _, _ in steps}]
    return sent, steps, lost


def units_under_loss():
    pyplot = plotting()
    sent, steps, lost = played()
    figure, axes = bare(pyplot, 92, 16 + 4.4 * len(steps))
    colors, unit = {}, 0
    for words in sent:
        colors[int(words[1])] = (BLUE, ORANGE, GREEN)[unit]
        unit += words[2] == "1"
    axes.text(1, 2.2, "sent", va="center", weight="bold")
    for place, number in enumerate(colors):
        left = 18 + 5.5 * place
        box(axes, left, 0.6, 5, 3.2, str(number), color=colors[number], fill="none")
        if number in lost:
            axes.plot([left, left + 5], [0.6, 3.8], color=RED, linewidth=2)
            axes.plot([left, left + 5], [3.8, 0.6], color=RED, linewidth=2)
    axes.text(53, 2.2, f"three units of two packets; {lost[0]} is lost; hold_back 0", va="center")
    axes.plot([1, 91], [6, 6], color=FAINT, linewidth=0.8)
    for left, title in ((1, "step"), (18, "held afterwards"), (53, "the pop answers")):
        axes.text(left, 8, title, va="center", weight="bold")
    for place, (kind, number, held, answer) in enumerate(steps):
        top = 10 + 4.4 * place
        late = kind == "push" and any(it > number for it in held)
        axes.text(1, top + 1.6, f"push {number}{', late' if late else ''}" if number else "pop", va="center")
        for one in held:
            box(axes, 18 + 5.5 * (one - min(colors)), top, 5, 3.2, str(one), color=colors[one])
        if answer and answer[0] == "unit":
            first, last = int(answer[1]), int(answer[2])
            box(axes, 53, top, 13, 3.2, f"unit {first}–{last}", color="white", fill=colors[first])
            axes.text(68, top + 1.6, "contiguous" if answer[3] == "1" else "not contiguous", va="center")
        elif answer:
            axes.text(53, top + 1.6, "None", va="center", color=FAINT)
    axes.text(1, 12.4 + 4.4 * len(steps), "hold_back 0: a complete frame after a gap is due at once. With hold_back n it is due once more than n complete\n"
              "frames are held, and until then a pop answers None, so a late packet still finds its frame.", va="center", color=FAINT,
              fontsize=9.5)
    keep("units_under_loss", figure)


# The layers of the crates, from the top: groups with a title, and their crates in lines. A crate uses crates of its layer and of
# the layers below.
LAYERS = (
    (("library for C", "c/c_receiving c_packets/c_fec c_path/handle"), ("packets and frames, in Rattle", "core"), ("theorems on whole runs", "server_runs session_units/session_runs answered_runs/forward_runs fec_runs/timely_runs datagram_runs/buffer_runs"),
     ("tests", "codec_tests run_tests/datagram_tests"), ("a program", "vectors/lines")),
    (("all streams of a port", "session session_stream/session_requests session_formats"),),
    (("receiving", "receiver stream_edges/datagrams jitter numbers/keyframes references buffer/contiguity metadata/queue index"),
     ("feedback", "feedback feedback_requests feedback_transport/feedback_wait feedback_congestion/feedback_ccfb feedback_xr"),
     ("sending, and what viewers see", "payloader sending sending_red/sending_history sending_forward/sending_fec feedback_freezes/bandwidth bandwidth_pacer/bandwidth_layers/bandwidth_estimate/bandwidth_estimator bandwidth_path/bandwidth_offer")),
    (("payload formats", "codec audio vp8 vp9 av1"), ("repetition", "red fec/fec_receiver fec_port"), ("what frames say", "media vpx layers/spatial edges/descriptor syntax"), ("packets", "rtp rtcp")),
    (("what all share", "base"),),
)
# Pixels: of the picture's width, of a letter, of a crate's box, between things.
WIDE, LETTER, HIGH, GAP = 980, 7.2, 24, 8


def layered():
    """Each crate of crates.txt with its layer, counted from the bottom, by its short name. Fails where a crate uses a higher layer."""
    lines = [it.partition(":") for it in read("crates.txt").split("\n") if it.strip() and not it.startswith("#")]
    uses = {name.split()[0].removeprefix("codec_").removeprefix("payload_"): below.split() for name, _, below in lines}
    heights = {it: -place for place, groups in enumerate(LAYERS) for _, names in groups for it in re.split("[ /]", names)}
    assert heights.keys() == uses.keys(), f"not once each: {heights.keys() ^ uses.keys()}"
    for name, below in uses.items():
        for it in below:
            if it.startswith("codec_payload_") or it == "payload_lines":
                assert heights[name] >= heights[it.removeprefix("codec_").removeprefix("payload_")], f"{name} uses {it}"
    return heights


def crates():
    layered()

    def wide(title, names):
        rows = [sum(LETTER * len(it) + 14 + GAP for it in row.split()) + GAP for row in names.split("/")]
        return max(*rows, LETTER * len(title) * 0.9 + 2 * GAP, 0)

    def frame(left, top, width, height, color, rounded):
        return f'<rect x="{left:.1f}" y="{top:.1f}" width="{width:.1f}" height="{height:.1f}" rx="{rounded}" fill="none" stroke="{color}"/>'

    def words(left, top, text, color, size):
        return f'<text x="{left:.1f}" y="{top:.1f}" font-size="{size}" fill="{color}">{text}</text>'

    text, top = [], GAP
    for groups in LAYERS:
        height = max(names.count("/") + 1 for _, names in groups) * (HIGH + GAP) + 20 + GAP / 2
        spare = (WIDE - GAP - sum(wide(*it) + GAP for it in groups)) / len(groups)
        assert spare >= 0, f"too wide by {-spare * len(groups)}: {groups}"
        left = GAP
        for title, names in groups:
            width = wide(title, names) + spare
            color = BLUE if title in ("tests", "a program") else ORANGE if title == "library for C" else INK
            text += [frame(left, top, width, height, FAINT, 6), words(left + GAP, top + 15, title, FAINT, 11)]
            for line, row in enumerate(names.split("/")):
                at, down = left + GAP, top + 20 + line * (HIGH + GAP)
                for name in row.split():
                    text += [frame(at, down, LETTER * len(name) + 14, HIGH, color, 4), words(at + 7, down + 16, name, color, 12)]
                    at += LETTER * len(name) + 14 + GAP
            left += width + GAP
        top += height + GAP
    head = f'<svg xmlns="http://www.w3.org/2000/svg" width="{WIDE}" height="{top:.0f}" viewBox="0 0 {WIDE} {top:.0f}" font-family="DejaVu Sans, Verdana, sans-serif">'
    write("crates", "\n".join([head, *text, "</svg>", ""]))


def over_a_copy():
    pyplot = plotting()
    rows = rows_of_figures()
    figure, axes = pyplot.subplots(figsize=(8.4, 0.235 * len(rows) + 1))
    places = range(len(rows))
    axes.axvline(1, color=FAINT, linewidth=1)
    for column, color, marker, name in ((1, BLUE, "o", "packetize, RED wrap"), (2, ORANGE, "D", "depacketize, RED decode")):
        axes.scatter([float(it[column]) for it in rows], places, color=color, marker=marker, s=34, label=name, zorder=3)
    into = [(float(rows_into()[it[0]]), place) for place, it in enumerate(rows) if it[0] in rows_into()]
    axes.scatter([it[0] for it in into], [it[1] for it in into], color=GREEN, marker="|", s=60, label="packetize_into, over memcpy", zorder=3)
    axes.set_yticks(list(places), [it[0] for it in rows], family="monospace", fontsize=9)
    axes.invert_yaxis()
    axes.set_xscale("log", base=2)
    axes.set_xticks([0.5, 1, 2, 4, 8, 16], ["0.5", "1: a copy", "2", "4", "8", "16"])
    axes.set_xlim(0.45, 22)
    axes.grid(axis="y", color=FAINT, alpha=0.35, linewidth=0.6)
    axes.set_axisbelow(True)
    for side in ("top", "right", "left"):
        axes.spines[side].set_visible(False)
    axes.tick_params(axis="y", length=0)
    axes.set_title("time of a call over that of a copy, which allocates the payloads and copies them, or of memcpy alone\n"
                   "Intel Xeon, 2026-11-24, commit 2bbb441", fontsize=10)
    axes.legend(loc="lower right", frameon=False, fontsize=10)
    keep("over_a_copy", figure)


def arrow(axes, left, right, at, color=INK, text="", above=1.3):
    axes.annotate("", (right, at), (left, at), arrowprops={"arrowstyle": "-|>", "color": color, "linewidth": 1.6})
    axes.text((left + right) / 2, at - above, text, ha="center", va="center", color=color, fontsize=10)


def copies():
    pyplot = plotting()
    figure, axes = bare(pyplot, 104, 42)
    copy, lent = ORANGE, FAINT
    for top, title, parts in (
        (3, "sending", (("sample", "a slice of the caller"),
                        ("payloads", "a Vec each; packetize_into uses\none memory again and again"),
                        ("packet", "the sink takes the Vec by value,\na sender writes its header in place"))),
        (17, "receiving", (("payload", "push takes it by value"), ("held packet", "stays where it is"),
                           ("unit", "one Vec, with room\nfor all payloads"))),
    ):
        axes.text(1, top - 1, title, weight="bold", va="center")
        for place, (name, said) in enumerate(parts):
            left = 1 + 39 * place
            box(axes, left, top + 1, 22, 7, f"{name}\n", color=INK)
            axes.text(left + 11, top + 5.6, said, ha="center", va="center", fontsize=8)
    arrow(axes, 23.3, 39.7, 7.5, copy, "copied once\n(AMR-WB twice)", 2)
    arrow(axes, 62.3, 78.7, 7.5, lent, "not copied")
    arrow(axes, 23.3, 39.7, 21.5, lent, "not copied")
    arrow(axes, 62.3, 78.7, 21.5, copy, "copied once", 1.3)
    axes.text(1, 30, "also", weight="bold", va="center")
    for place, said in enumerate((
        "RED: wrap copies the payload into the packet, and each older payload that the packet repeats",
        "AV1: an element that continues in the next packet is copied once more, except its last fragment",
        "the library for C copies once more in each direction: a payload into a buffer, a packet or a unit to the caller",
    )):
        axes.text(2.5, 33 + 2.8 * place, f"· {said}", va="center", fontsize=10)
    keep("copies", figure)


# Rows of bytes: each byte is a list of fields from the highest bit on, each with its number of bits. Then the condition of each
# byte, and the meaning of the letters.
DESCRIPTORS = (
    ("VP8 (RFC 7741, section 4.2)", (
        [("X", 1), ("R", 1), ("N", 1), ("S", 1), ("R", 1), ("PID", 3)],
        [("I", 1), ("L", 1), ("T", 1), ("K", 1), ("RSV", 4)],
        [("M", 1), ("picture id", 7)],
        [("picture id, low", 8)],
        [("TL0PICIDX", 8)],
        [("TID", 2), ("Y", 1), ("KEYIDX", 5)],
    ), ("always", "if X", "if I", "if M", "if L", "if T or K"), (
        "X the second byte follows; N no frame refers to this one; S a partition starts",
        "PID partition; I, L, T, K: picture id, TL0PICIDX, TID, KEYIDX follow; M 15-bit id",
        "TID temporal layer; Y refers to the base layer only; KEYIDX latest keyframe; R, RSV 0",
    )),
    ("VP9 (RFC 9628, section 4.2)", (
        [("I", 1), ("P", 1), ("L", 1), ("F", 1), ("B", 1), ("E", 1), ("V", 1), ("Z", 1)],
        [("M", 1), ("picture id", 7)],
        [("picture id, low", 8)],
        [("TID", 3), ("U", 1), ("SID", 3), ("D", 1)],
        [("TL0PICIDX", 8)],
        [("P_DIFF", 7), ("N", 1)],
        [("scalability structure", 8)],
    ), ("always", "if I", "if M", "if L", "if L, not F", "if F and P: 1 to 3", "if V"), (
        "I picture id; P refers to other pictures; L layer indices; F flexible mode; B, E first,",
        "last packet of a layer frame; V structure; Z upper layers do not need it; M 15-bit id; TID,",
        "SID temporal, spatial layer; U may switch up; D needs the layer below; N another P_DIFF",
    )),
    ("AV1 (aggregation header)", (
        [("Z", 1), ("Y", 1), ("W", 2), ("N", 1), ("–", 3)],
        [("length, 7 bits a byte (LEB128)", 8)],
        [("OBU, or a fragment of one", 8)],
    ), ("always", "of each, but the last if W", "for each element"), (
        "Z the first element continues an OBU; Y the last one continues in the next packet",
        "W number of elements, 0 for any; N a coded video sequence starts",
    )),
    ("RED (RFC 2198, section 3)", (
        [("F=1", 1), ("payload type", 7)],
        [("offset, high 8 of 14 bits", 8)],
        [("offset, low", 6), ("length", 2)],
        [("length, low 8 of 10 bits", 8)],
        [("F=0", 1), ("payload type", 7)],
        [("older blocks, then the primary", 8)],
    ), ("for each older block", "", "", "", "of the primary block", ""), (
        "F 1: another header follows; 0: this is the last one; offset: how much older the block",
        "is, in ticks of the RTP clock; length: bytes of the block",
    )),
)


def descriptors():
    pyplot = plotting()
    figure, axes = bare(pyplot, 112, 76)
    for number, (title, rows, when, words) in enumerate(DESCRIPTORS):
        left, top = 1 + 57 * (number % 2), 2 + 39 * (number // 2)
        axes.text(left, top, title, weight="bold", va="center", fontsize=11)
        for bit in range(8):
            axes.text(left + 1.75 + 3.5 * bit, top + 2.6, str(bit), ha="center", va="center", fontsize=8, color=FAINT)
        for place, fields in enumerate(rows):
            at, row = left, top + 3.8 + 3.2 * place
            for name, bits in fields:
                color = BLUE if bits == 1 and name not in ("R", "–") else FAINT if name in ("R", "RSV", "–") else INK
                axes.add_patch(pyplot.Rectangle((at, row), 3.5 * bits, 3.2, edgecolor=INK, facecolor="none", linewidth=1))
                axes.text(at + 1.75 * bits, row + 1.6, name, ha="center", va="center", color=color, fontsize=9.5)
                at += 3.5 * bits
            axes.text(left + 29, row + 1.6, when[place], va="center", fontsize=9, color=FAINT)
        for place, line in enumerate(words):
            axes.text(left, top + 6 + 3.2 * len(rows) + 2.2 * place, line, va="center", fontsize=8.5)
    keep("descriptors", figure)


def beside():
    pyplot = plotting()
    rows, programs = rows_beside(), rows_of_recorder()
    figure, (above, below) = pyplot.subplots(2, 1, figsize=(8.4, 5.6), height_ratios=(len(rows), len(programs) + 1))
    places = range(len(rows))
    above.axvline(1, color=FAINT, linewidth=1)
    for column, color, marker, name in ((1, BLUE, "o", "packetize"), (2, ORANGE, "D", "depacketize")):
        above.scatter([float(it[column]) for it in rows], places, color=color, marker=marker, s=34, label=name, zorder=3)
    above.set_yticks(list(places), [it[0] for it in rows], fontsize=9)
    above.invert_yaxis()
    above.set_xlim(0, 1.4)
    above.set_xticks([0, 0.25, 0.5, 0.75, 1, 1.25], ["0", "0.25", "0.5", "0.75", "1: str0m", "1.25"])
    above.grid(axis="y", color=FAINT, alpha=0.35, linewidth=0.6)
    above.set_title("time of a call over that of str0m 0.25.0 (to the left: faster)", fontsize=10)
    above.legend(loc="upper left", frameon=False, fontsize=10)
    counts = [int(it[1].replace(",", "")) / 1000 for it in programs]
    below.barh([it[0].replace("`", "") for it in programs], counts, color=[FAINT, BLUE, BLUE, ORANGE][: len(counts)], height=0.6)
    for place, count in enumerate(counts):
        below.text(count + 15, place, f"{count:,.0f}", va="center", fontsize=9)
    below.invert_yaxis()
    below.tick_params(axis="y", length=0, labelsize=9)
    below.set_title("thousands of packets a second of processor time, a capture of VP8 (to the right: faster)", fontsize=10)
    for axes in (above, below):
        axes.set_axisbelow(True)
        axes.tick_params(axis="y", length=0)
        for side in ("top", "right", "left"):
            axes.spines[side].set_visible(False)
    figure.tight_layout(h_pad=2)
    keep("beside", figure)


# The phases of a receiver's life: the name, the packets with their colours, the outcome, the units, and the caller's part.
PHASES = (
    ("start", (("7", FAINT), ("8", BLUE)), "Undecided for 7,\nHeld once 8 follows", "the first one, once a\nsecond frame is complete", "settings without\nan SSRC"),
    ("running", (("9", BLUE), ("10", BLUE), ("11", BLUE)), "Held", "each complete frame,\ncontiguous", "receive, then pop\nuntil no unit is due"),
    ("loss", (("12", RED), ("13", ORANGE), ("14", ORANGE)), "Held for 13 and 14", "waits for 12, at most\nmax_wait (100 ms)", "NACK by `missing`,\nor RED brings 12"),
    ("after a gap", (("15", ORANGE), ("16", ORANGE)), "Held", "not contiguous:\na keyframe is needed", "PLI; drop frames\nuntil a keyframe"),
    ("restart", (("40500", GREEN), ("40501", GREEN)), "Suspect for 40500,\nRestarted for 40501", "frames of both\nsequences, in order", "nothing: the receiver\nfinds it"),
    ("end", (("40502", GREEN),), "Held", "all complete frames,\nwithout waiting", "finish, then pop\nuntil None"),
)


def receiver_life():
    pyplot = plotting()
    figure, axes = bare(pyplot, 121, 27)
    for top, title in ((2.4, ""), (8, "arrives"), (13.4, "outcome"), (18.4, "units"), (23.4, "you")):
        axes.text(1, top, title, va="center", weight="bold")
    for place, (name, packets, outcome, units, calls) in enumerate(PHASES):
        left = 11 + 18.4 * place
        box(axes, left, 0.8, 15.4, 3.2, name, weight="bold")
        if place + 1 < len(PHASES):
            arrow(axes, left + 15.7, left + 18.1, 2.4)
        for number, (packet, color) in enumerate(packets):
            box(axes, left + 5.2 * number, 6.4, 4.6, 3.2, packet, color=color, fontsize=9 if len(packet) > 3 else 11)
            if color == RED:
                axes.plot([left + 5.2 * number, left + 5.2 * number + 4.6], [6.4, 9.6], color=RED, linewidth=2)
        for top, text in ((13.4, outcome), (18.4, units), (23.4, calls.replace("`", ""))):
            axes.text(left, top, text, va="center", fontsize=9)
    axes.plot([1, 120], [11.2, 11.2], color=FAINT, linewidth=0.8)
    keep("receiver_life", figure)


# The life of a session: the moment, the datagrams with their colours, the stages of the streams A and B, the events, the caller's part.
MOMENTS = (
    ("first packet", (("A 7", BLUE),), ("probation", ""), "none: A may be\na stray packet", "receive, then poll\nuntil None"),
    ("second packet", (("A 8", BLUE),), ("playing", ""), "Begun A,\nUnits A 7, A 8", "make a decoder\nfor A"),
    ("another sender", (("B 40", ORANGE), ("B 41", ORANGE)), ("playing", "playing"), "Begun B,\nUnits B 40, B 41", "make a decoder\nfor B"),
    ("A leaves", (("BYE A", RED), ("A 9", BLUE)), ("leaving", "playing"), "Unit A 9: packets\nmay come after BYE", "poll at\nnext_deadline"),
    ("200 ms later", (), ("ended", "playing"), "the last units of A,\nEnded A", "drop the decoder\nof A"),
    ("30 s without B", (), ("", "ended"), "Ended B", "drop the decoder\nof B"),
    ("the end", (), ("", ""), "for each stream left:\nits units, Ended", "finish, then poll\nuntil None"),
)


def session_life():
    pyplot = plotting()
    figure, axes = bare(pyplot, 124, 31)
    rows = ((2.4, ""), (8, "arrives"), (13.6, "stream A"), (17.6, "stream B"), (23, "polls give"), (28, "you"))
    for top, title in rows:
        axes.text(1, top, title, va="center", weight="bold")
    for place, (name, datagrams, stages, events, calls) in enumerate(MOMENTS):
        left = 13 + 16 * place
        box(axes, left, 0.8, 13.4, 3.2, name, weight="bold", fontsize=10)
        if place + 1 < len(MOMENTS):
            arrow(axes, left + 13.7, left + 15.7, 2.4)
        for number, (datagram, color) in enumerate(datagrams):
            box(axes, left + 6.9 * number, 6.4, 6.4, 3.2, datagram, color=color, fontsize=9)
        for top, stage, color in ((13.6, stages[0], BLUE), (17.6, stages[1], ORANGE)):
            if stage:
                box(axes, left, top - 1.5, 13.4, 3, stage, color=FAINT if stage == "ended" else color, fontsize=9)
        for top, text in ((23, events), (28, calls)):
            axes.text(left, top, text, va="center", fontsize=9)
    for height in (11.2, 20.2):
        axes.plot([1, 123], [height, height], color=FAINT, linewidth=0.8)
    keep("session_life", figure)


# The packets of the picture of a buffer: number, whether it begins and ends a unit, and what its block notes, if it is an end of
# a row. The numbers 12 and 16 are missing.
HELD = (
    (10, "begins", "row to 11"), (11, "ends", "row from 10\nbegins at 10"), (13, "begins", "row to 15"), (14, "", ""),
    (15, "", "row from 13\nbegins at 13"), (17, "begins,\nends", "row 17\nbegins at 17"),
)


def buffer_layout():
    pyplot = plotting()
    figure, axes = bare(pyplot, 112, 40)
    for top, title in ((3.4, "queue of entries,\n16 bytes each"), (16.5, "a block for\neach packet,\n128 bytes"),
                       (27.5, "notes at the\nends of rows"), (36, "complete frames")):
        axes.text(1, top, title, va="center", weight="bold", fontsize=10)
    for place, (number, kind, note) in enumerate(HELD):
        left, color = 22 + 15 * place, (BLUE, ORANGE, GREEN)[(number > 12) + (number > 16)]
        box(axes, left, 1.6, 12, 3.6, f"{number}", color=color, weight="bold")
        axes.annotate("", (left + 6, 11.4), (left + 6, 5.6), arrowprops={"arrowstyle": "->", "color": FAINT, "linewidth": 1.2})
        box(axes, left, 11.8, 12, 9.6, f"metadata,\npayload\n{kind}".rstrip(), color=color, fontsize=9)
        axes.text(left + 6, 27.5, note, ha="center", va="center", fontsize=9, color=INK if note else FAINT)
    box(axes, 22, 33.8, 27, 4.4, "known: 10 to 11, 17 to 17", color=FAINT, fontsize=10)
    box(axes, 52, 33.8, 12, 4.4, "ready: 2", color=FAINT, fontsize=10)
    axes.text(67, 36, "13 to 15 is a row without an end of a unit", va="center", fontsize=9)
    for height in (8.2, 24, 31.4):
        axes.plot([1, 111], [height, height], color=FAINT, linewidth=0.5, alpha=0.5)
    keep("buffer_layout", figure)


# The tiers of the picture of a queue, each drawn with seven of its entries: the numbers before an insertion, and after it.
TIERS = (("first tier,\n1,024 entries", "10 12 14 … 30 32 34", "10 12 13 14 … 30 32"), ("1,024 entries", "36 38 40 … 54 56 58", "34 36 38 40 … 54 56"),
         ("last tier", "60 62 64", "58 60 62 64"))


def queue_tiers():
    pyplot = plotting()
    figure, axes = bare(pyplot, 112, 34)
    for left, title in ((20, "before"), (68, "after 13 was inserted")):
        axes.text(left, 1.4, title, va="center", weight="bold", fontsize=10)
    for row, (title, before, after) in enumerate(TIERS):
        top = 4 + 10 * row
        axes.text(1, top + 2, title, va="center", fontsize=10)
        for left, numbers in ((20, before), (68, after)):
            for place, number in enumerate(numbers.split()):
                carried = number in ("34", "58") and left == 68 or number in ("34", "58") and place == len(numbers.split()) - 1
                color = GREEN if number == "13" else ORANGE if carried else BLUE
                box(axes, left + 6 * place, top, 5.4, 4, number, color=FAINT if number == "…" else color, weight="bold" if number == "13" else "normal")
        if row < 2:
            axes.annotate("", (70.7, top + 9.6), (107, top + 4.4), arrowprops={"arrowstyle": "->", "color": ORANGE, "linewidth": 1.2})
            axes.text(76, top + 6.4, ("34", "58")[row] + " moves up", va="center", fontsize=9, color=ORANGE)
    keep("queue_tiers", figure)


PICTURES = {
    it.__name__: it
    for it in (units_under_loss, crates, over_a_copy, beside, receiver_life, session_life, buffer_layout, queue_tiers, copies, descriptors)
}


def main(words):
    os.makedirs(FOLDER, exist_ok=True)
    for name in words or PICTURES:
        PICTURES[name]()


if __name__ == "__main__":
    main(sys.argv[1:])

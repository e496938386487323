"""Rewrites forms that rustc 1.85 lacks, or that need a usize of 64 bits."""
from tokens import Token, close, opens, plain, tokens

# Calls of rustc 1.87 between numbers of one width: file below `crates`, and the receiver, to the type of the result.
SIGNS = {
    ("codec_payload_rtp/src/values.rt", "number_of(offset)"): "i64",
    ("codec_payload_rtp/src/writing.rt", "offset"): "u64",
    ("codec_payload_session_stream/src/reports.rt", "report.cumulative_lost"): "u32",
}
# Counts of type usize whose remainder by 2^32 is taken: file below `crates`, and the count. A usize of 32 bits has no number 2^32.
COUNTS = {
    ("codec_payload_index/src/ssrcs.rt", "near"),
    ("codec_payload_sending/src/sender.rt", "out.get(place).len()"),
    ("codec_payload_sending/src/sender.rt", "count"),
}
# Functions that Rust can call in constants too: file below `crates`, and names. So settings may be constants of a program.
IN_CONSTANTS = {
    "codec_payload_bandwidth_layers/src/chooser.rt": {"live"},
    "codec_payload_bandwidth_offer/src/offer.rt": {"live"},
    "codec_payload_bandwidth_pacer/src/pacer.rt": {"live"},
    "codec_payload_bandwidth_pacer/src/resends.rt": {"live"},
    "codec_payload_bandwidth_path/src/path.rt": {"live"},
    "codec_payload_feedback/src/transport.rt": {"live"},
    "codec_payload_feedback_requests/src/nack.rt": {"live"},
    "codec_payload_feedback_wait/src/adaptive_wait.rt": {"live"},
    "codec_payload_jitter/src/waiting.rt": {"file", "for_live", "live", "live_video_with_nack", "live_with_nack"},
}
TWO_TO_32 = ("( 1 < < 32 )", "4_294_967_296 )")


def be_portable(f):
    """Applies the rules of this module to a file."""
    nest_lets(f)
    cast_signs(f)
    widen_counts(f)
    be_constant(f)


def be_constant(f):
    """Marks the functions that constants may call."""
    names = IN_CONSTANTS.get(f.path.split("crates/")[-1], ())
    for i in range(len(f.ts) - 2, -1, -1):
        if f.ts[i].text == "fn" and f.ts[i + 1].text in names:
            f.ts.insert(i, Token(f.ts[i].pre, "const", "word", f.ts[i].line))
            f.ts[i + 1].pre = " "


def place(f, ts):
    """A place in a file as the tables of this module name it."""
    return f.path.split("crates/")[-1], plain(ts).replace(" ", "")


def nest_lets(f):
    """`if a && let b = c { .. }` becomes an `if` in an `if`."""
    i = 0
    while i < len(f.ts):
        if f.ts[i].kind == "word" and f.ts[i].text in ("if", "while"):
            body, ands = condition(f, i)
            parts = [i, *ands]
            lets = [f.ts[at + 1].text == "let" for at in parts]
            if ands and any(lets):
                end = close(f.ts, body)
                if f.ts[i].text != "if" or f.ts[i - 1].text == "else" or f.ts[end + 1].text == "else":
                    f.refuse(f.ts[i], "a chain of conditions with `let` that is not an `if` without else")
                nest(f, [at for at, here, before in zip(ands, lets[1:], lets) if here or before], end)
        i += 1


def condition(f, i):
    """The brace that opens the body of the `if` or `while` at `i`, and the places of `&&` in its condition."""
    ands, j = [], i + 1
    while f.ts[j].text not in ("{", "=>", "end"):
        if f.ts[j].kind == "p" and f.ts[j].text == "&&":
            ands.append(j)
        j = close(f.ts, j) + 1 if f.ts[j].kind == "p" and f.ts[j].text in ("(", "[") else j + 1
    return j, ands


def nest(f, ands, end):
    """Makes each `&&` of these places the beginning of an inner `if`. The outer body ends at `end`."""
    f.ts[end:end] = [Token("\n", "}", "p", f.ts[end].line) for _ in ands]
    for at in reversed(ands):
        if f.ts[at + 1].text == "(" and f.ts[close(f.ts, at + 1) + 1].text == "{":  # `if (a || b) {`
            del f.ts[close(f.ts, at + 1)]
            del f.ts[at + 1]
            f.ts[at + 1].pre = " "
        f.ts[at:at + 1] = [Token(" ", "{", "p", f.ts[at].line), Token("\n", "if", "word", f.ts[at].line)]


def cast_signs(f):
    """`x.cast_signed()` and `x.cast_unsigned()` become `(x as T)`."""
    i = 0
    while i < len(f.ts):
        if f.ts[i].text in ("cast_signed", "cast_unsigned") and f.ts[i - 1].text == ".":
            first = receiver(f, i)
            made = SIGNS.get(place(f, f.ts[first:i - 1]))
            if made is None:
                f.refuse(f.ts[i], f"{f.ts[i].text} on a number whose type portable.py does not have")
            pre, f.ts[first].pre = f.ts[first].pre, ""
            ends = f.ts[i + 3].text in (")", ",", ";")
            f.ts[i - 1:i + 3] = tokens(f" as {made}" if ends else f" as {made})")[:-1]
            f.ts[first].pre = pre if ends else ""
            if not ends:
                f.ts[first:first] = [Token(pre, "(", "p", f.ts[first].line)]
        i += 1


def receiver(f, i):
    """The first token of the number that the method at `i` is called on: names, fields and calls."""
    first = i - 1
    while True:
        last = first - 1
        first = opens(f.ts, last) - 1 if f.ts[last].text == ")" else last
        if f.ts[first - 1].text not in (".", "::"):
            return first
        first -= 1


def widen_counts(f):
    """`count % 2^32` becomes `count as u64 % 2^32`."""
    i = 1
    while i < len(f.ts):
        rest = plain(f.ts[i + 1:i + 7])
        if f.ts[i].text == "%" and rest.startswith(TWO_TO_32):
            first = receiver(f, i + 1) if f.ts[i - 1].kind == "word" or f.ts[i - 1].text == ")" else i
            if place(f, f.ts[first:i]) in COUNTS:
                f.ts[i:i] = tokens(" as u64")[:-1]
                i += 2
        i += 1

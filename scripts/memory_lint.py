#!/usr/bin/env python3
"""Out of memory is passed on, and never made: a source names it as a value only where a call has failed.

  scripts/memory_lint.py            looks through crates/codec_payload_*/src, and tries its own plants
  scripts/memory_lint.py FILE ..    looks through these files

The prover lets a function answer out of memory at any time: a contract says what that leaves, not that an allocation failed. So this
script looks at each place in the body of a function that has `AllocError`, `OutOfMemory`, `BlocksOutOfMemory` or `OUT_OF_MEMORY` as
a value. The innermost arm or block around it has to be of a failure:

- an arm whose pattern has `Err(..)` or one of these names, or the bool of a function in CARRIERS that says that memory ran out;
- the `else` of `let Ok(..) = ..`, or the block of `if ..` whose condition is `.is_err()`, `let Err(..)` or a function in CARRIERS;
- the closure of `map_err`, or a function that takes an `AllocError`.

It goes by text, not by the grammar of Rattle. The status is 0 if nothing is reported and each plant is.
"""
import glob
import os
import re
import sys

from rattle_source import LITERAL

ROOT = os.path.dirname(os.path.dirname(os.path.realpath(__file__)))
NAME = re.compile(r"\b(?:AllocError|OutOfMemory|BlocksOutOfMemory|OUT_OF_MEMORY)\b")
# What says by a bool that memory ran out. Each is false or true only after a call that failed; a new one is a reason to look.
CARRIERS = ["!taken.whole", "is_no_memory(", "is_out_of_memory(", "settle_on(", "settle_first(", "settle_anew(", "has_memory", "is_memory("]
OPEN, CLOSE = "([{", ")]}"
# Bodies of a function, and whether each makes out of memory.
PLANTS = [
    ("if payload.len() > 1_400 { return Err(AllocError); } out.try_push(1)?; Ok(())", True),
    ("let Some(first) = bytes.first() else { return Err(PacketError::OutOfMemory); }; Ok(*first)", True),
    ("match copied(bytes) { Ok(v) if v.len() > 64 => Err(AllocError), Ok(v) => Ok(v), Err(e) => Err(e) }", True),
    ("match copied(bytes) { Ok(0) | Err(_) => Err(AllocError), Ok(v) => Ok(v) }", True),
    ("match kind { Kind::Vp9 => Err(AllocError), _ => Ok(()) }", True),
    ("match kind { Kind::Vp9 => { count(); Err(AllocError) } _ => Ok(()) }", True),
    ("if out.try_push(1).is_err() || out.len() > 32 { return Err(AllocError); } Ok(())", True),
    ("if out.try_push(1).is_ok() { return Err(AllocError); } Ok(())", True),
    ("bytes.first().ok_or(AllocError)", True),
    ("if pairs.len() < 32 { push(pair) } else { Err(PacketError::OutOfMemory) }", True),
    ("let fault = PacketError::OutOfMemory; if late { return Err(fault); } Ok(())", True),
    ("status::OUT_OF_MEMORY", True),
    ("match copied(bytes) { Ok(v) => Ok(v), Err(AllocError) => Err(PacketError::OutOfMemory) }", False),
    ("let Ok(v) = copied(bytes) else { return Err(AllocError); }; Ok(v)", False),
    ("if out.try_push(1).is_err() { return Err(AllocError); } Ok(())", False),
    ("if let Err(fault) = out.try_push(1) { return Err(PacketError::OutOfMemory); } Ok(())", False),
    ("out.try_push(1).map_err(|_| PacketError::OutOfMemory)", False),
    ("matches!(answer, Err(PacketError::OutOfMemory))", False),
    ("match event { Event::Unit { unit: Err(_), .. } => status::OUT_OF_MEMORY, _ => status::OK }", False),
    ("let made: Result<u8, AllocError> = copied(bytes); made", False),
]


class Source:
    """The text of a file, of which only the bodies of functions are left; all else is blank, with the same places."""

    def __init__(self, text):
        text = LITERAL.sub(lambda m: re.sub(r"[^\n]", " ", m[0]), text)
        text = re.sub(r"\bghost\b(?!\s+use)[^;{]*\{[^;]*?\};|\bghost use [^;]*;", lambda m: re.sub(r"[^\n]", " ", m[0]), text)
        self.text = text = self.without_clauses(text)
        self.bodies = [(m.end() - 1, self.closed(m.end() - 1)) for m in re.finditer(r"\bfn \w+[^{};]*\{", text)]

    def without_clauses(self, text):
        """The text without the braces of `requires` and `ensures`."""
        at = re.compile(r"\b(?:requires|ensures)\b[^{]*\{")
        match = at.search(text)
        while match:
            end = matching(text, match.end() - 1)
            text = text[:match.start()] + re.sub(r"[^\n]", " ", text[match.start():end + 1]) + text[end + 1:]
            match = at.search(text, end)
        return text

    def closed(self, place):
        """The place of the brace that closes the one at a place."""
        return matching(self.text, place)

    def values(self):
        """The places in bodies where a name stands for a value."""
        for match in NAME.finditer(self.text):
            if any(begin < match.start() < end for begin, end in self.bodies) and not self.is_type(match) and not self.is_pattern(match.end()):
                yield match.start()

    def is_type(self, match):
        """Whether a name is an argument of a type, or the beginning of a path."""
        after = self.text[match.end():match.end() + 2]
        return bool(re.match(r">(?!=)|::", after)) or bool(re.search(r"<[^()<>;{}]*$", self.text[:match.start()][-80:]))

    def is_pattern(self, place):
        """Whether the text at a place is part of a pattern: of an arm, of `let`, or of `matches!`."""
        depth = 0
        while place < len(self.text):
            char = self.text[place]
            if self.text.startswith("=>", place):
                return depth <= 0
            if char in ";{}" or char == "," and depth <= 0 and not self.continues(place):
                return False
            if char == "=" and depth <= 0:
                return bool(re.search(r"\b(?:if|while|&&)?\s*let\b[^=;{}]*$", self.text[:place]))
            if char in "([":
                depth += 1
            elif char in ")]":
                depth -= 1
                if depth < 0 and "matches!(" in self.text[max(0, place - 120):place].split(";")[-1]:
                    return True
            place += 1
        return False

    def continues(self, place):
        """Whether a comma is inside the brackets of one pattern."""
        return bool(re.match(r",\s*(?:[\w:]+|_|\.\.)\s*\)+\s*(?:\||=>|if )", self.text[place:place + 80]))

    def around(self, place):
        """What is around a place: the head of the innermost arm or block, from the previous statement on."""
        depth = 0
        for i in range(place - 1, -1, -1):
            char = self.text[i]
            if char in CLOSE:
                depth += 1
            elif char in OPEN:
                if depth == 0 and char == "{":
                    return self.head(i)
                depth = max(0, depth - 1)
            elif depth == 0 and self.text.startswith("=>", i):
                return self.head(i) + " =>"
        return ""

    def head(self, end):
        """The text in front of a place, back to the statement, arm or block before it."""
        depth, i = 0, end - 1
        while i >= 0:
            char = self.text[i]
            if char in CLOSE:
                if depth == 0 and char == "}" and not re.match(r"\}\s*(?:else|\)|\.|\?|$)", self.text[i:end]):
                    break
                depth += 1
            elif char in OPEN:
                if depth == 0:
                    break
                depth -= 1
            elif depth == 0 and (char == ";" or char == "," and not self.text[:i].endswith("|")):
                break
            i -= 1
        return " ".join(self.text[i + 1:end].split())

    def scrutinee(self, place):
        """What the match around a place is about."""
        depth = 0
        for i in range(place - 1, -1, -1):
            char = self.text[i]
            if char in CLOSE:
                depth += 1
            elif char in OPEN:
                if depth == 0 and char == "{":
                    head = self.head(i)
                    if " match " in f" {head} " or head.startswith("match "):
                        return head
                else:
                    depth = max(0, depth - 1)
        return ""

    def is_failure(self, place):
        """Whether the innermost arm or block around a place is that of a call that failed."""
        head = self.around(place)
        if head.endswith("=>"):
            pattern, _, guard = head[:-2].partition(" if ")
            if guard and "||" not in guard and carries(guard):
                return True
            if all(re.search(r"\bErr\(", it) or NAME.search(it) for it in alternatives(pattern)):
                return True
            return bool(re.search(r"\b(?:true|false)\b", pattern)) and carries(self.scrutinee(place))
        if re.search(r"\bfn \w+\([^)]*\bAlloc(?:Error|Failed)\b", head):
            return True
        if head.endswith("else"):
            return bool(re.search(r"\blet\b[^=]*\bOk\(", head))
        if re.search(r"\bif\b", head):
            condition = head[head.rindex("if ") + 3:] if "if " in head else ""
            return "||" not in condition and (".is_err()" in condition or bool(re.search(r"\blet\b.*\bErr\(", condition)) or carries(condition))
        return bool(re.search(r"\bmap_err\(\|\w+\|[^;]{0,40}$", self.text[max(0, place - 80):place]))


def carries(text):
    """Whether a text asks a function that says that memory ran out."""
    return any(it in text for it in CARRIERS)


def alternatives(pattern):
    """The alternatives of a pattern."""
    found, depth = [""], 0
    for char in pattern:
        depth += (char in OPEN) - (char in CLOSE)
        if char == "|" and depth == 0:
            found.append("")
        else:
            found[-1] += char
    return found


def matching(text, place):
    """The place of the bracket that closes the one at a place."""
    depth = 0
    for i in range(place, len(text)):
        depth += (text[i] in OPEN) - (text[i] in CLOSE)
        if depth == 0:
            return i
    return len(text) - 1


def faults(text):
    """The lines of a source in which out of memory is made."""
    source = Source(text)
    for place in source.values():
        if not source.is_failure(place):
            yield text.count("\n", 0, place) + 1


def plants_fail():
    """Yields what is wrong about the plants: bodies of each form, and an early return in each body of the sources that passes a failure on."""
    for body, makes in PLANTS:
        if bool(list(faults(f"fn f() -> Result<(), AllocError>\n    ensures {{ x ≡ OutOfMemory }}\n{{ {body} }}\n"))) != makes:
            yield f"{'not reported' if makes else 'reported'}: {body}"
    for path in paths():
        with open(path, encoding="utf-8") as file:
            text = file.read()
        source = Source(text)
        bodies = [begin for begin, end in source.bodies if any(begin < place < end for place in source.values())]
        for begin in reversed(bodies):
            text = text[:begin + 1] + " if much > 64 { return Err(AllocError); }" + text[begin + 1:]
        if len(list(faults(text))) != len(bodies):
            yield f"{os.path.relpath(path, ROOT)}: {len(list(faults(text)))} of {len(bodies)} early returns are reported"


def paths():
    """All sources of the library."""
    return sorted(glob.glob(f"{ROOT}/crates/codec_payload_*/src/**/*.rt", recursive=True))


def main(files):
    """Looks through the files, and tries the plants if none are named."""
    found = 0
    for path in files or paths():
        with open(path, encoding="utf-8") as source:
            text = source.read()
        for line in faults(text):
            found += 1
            print(f"{os.path.relpath(path, ROOT)}:{line}: makes out of memory: {text.splitlines()[line - 1].strip()}")
    wrong = [] if files else list(plants_fail())
    print("\n".join([*wrong, f"{found} places make out of memory, {len(wrong)} plants are judged wrongly"]))
    return 1 if found or wrong else 0


if __name__ == "__main__":
    sys.exit(main(sys.argv[1:]))

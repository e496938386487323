"""What the rules know of the whole library: methods, types of fields and of results, structs without fields."""
import re

from source import base, enclosing
from tokens import angles, close, plain

# Collections of the standard library whose calls may fail to allocate.
COLLECTIONS = {"Vec", "VecDeque", "SmallVec"}


class Known:
    """Methods by name, the types of fields and of results by name, and structs without fields."""

    def __init__(self):
        self.methods, self.fields, self.fields_of, self.answers, self.units = {}, {}, {}, {}, set()

    def read(self, f):
        """Takes in what a file declares."""
        ts = f.ts
        for i, t in enumerate(ts):
            if t.kind != "word":
                continue
            if t.text == "fn" and ts[i + 1].kind == "word":
                name = ts[i + 1].text
                _, self_type = enclosing(f, i)
                if self_type and self_type not in COLLECTIONS:
                    self.methods.setdefault(name, set()).add(self_type)
                k = i + 2
                if ts[k].text == "<":
                    k = angles(ts, k)
                k = close(ts, k) + 1
                if ts[k].text == "->":
                    e = k + 1
                    while ts[e].text not in ("{", ";", "where") and ts[e].kind not in ("clause",):
                        e += 1
                    text = plain(ts[k + 1:e])
                    m = re.match(r"(?:(?:\w+ :: )*(?:Result|Option) < )+(.*)", text)
                    text = m.group(1) if m else text
                    b = base(text)
                    self.answers.setdefault(name, set()).add(self_type if b == "Self" else b)
            if t.text == "struct" and ts[i + 1].kind == "word":
                k = i + 2
                if ts[k].text == "<":
                    k = angles(ts, k)
                if ts[k].text != "{":
                    continue
                j, end = k + 1, close(ts, k)
                while j < end:
                    if ts[j].kind == "word" and ts[j + 1].text == ":" and ts[j + 1].kind == "p":
                        e, depth = j + 2, 0
                        while e < end and not (ts[e].text == "," and depth == 0):
                            depth += (ts[e].text in "<([") - (ts[e].text in ">)]")
                            e += 1
                        b = base(plain(ts[j + 2:e]))
                        self.fields.setdefault(ts[j].text, set()).add(b)
                        self.fields_of.setdefault(ts[i + 1].text, {}).setdefault(ts[j].text, set()).add(b)
                        j = e + 1
                    else:
                        j += 1

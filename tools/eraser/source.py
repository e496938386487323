"""A source file on its way to Rust, and how to find and drop the items in it."""
import re

from layout import C_LIBRARY
from tokens import CLOSE, OPEN, Refused, angles, close, joined, opens, plain, tokens


class File:
    """A file on its way: its tokens, and what the rules find in it."""

    def __init__(self, path, text, known):
        try:
            self.ts = tokens(text)
        except Refused as e:
            raise Refused(f"{path}: {e}") from None
        self.path, self.known = path, known
        # In the library no call may abort with the feature `fallible`; a program may.
        self.is_library = path.startswith("crates/codec_payload_")
        # No user in Rust reaches what the library for C has.
        self.has_users = not re.match(r"crates/codec_payload_(%s)/" % "|".join(C_LIBRARY), path)
        self.asks = []  # (name of a public function, its premises)
        self.needs = set()  # of crate::memory

    def refuse(self, t, why):
        raise Refused(f"{self.path}:{t.line}: {why}")

    def has_items(self):
        """Whether the file declares anything."""
        kinds = ("fn", "struct", "enum", "trait", "const", "impl", "mod", "type")
        return any(t.kind == "word" and t.text in kinds for t in self.ts)



def without_doc(pre):
    """Space and comments without the comments that document what comes next."""
    lines = pre.split("\n")
    while len(lines) > 1 and lines[-2].strip().startswith("///"):
        del lines[-2]
    return "\n".join(lines)


def document(first, lines):
    """Adds a paragraph to the documentation of the item with that first token."""
    indent = re.search(r"[ \t]*$", first.pre).group(0)
    lines = ([""] if "///" in first.pre else []) + lines
    text = "".join(f"{indent}/// {line}".rstrip() + "\n" for line in lines)
    first.pre = first.pre[:len(first.pre) - len(indent)] + text + indent


def item_start(f, i):
    """The first token of the item whose keyword is at `i`, with its attributes."""
    while True:
        p = f.ts[i - 1] if i else None
        if p is None:
            return i
        if p.kind == "word" and p.text in ("pub", "const", "unsafe", "async", "final", "extern"):
            i -= 1
        elif p.text == ")" and plain(f.ts[opens(f.ts, i - 1) - 1:opens(f.ts, i - 1)]) == "pub":
            i = opens(f.ts, i - 1) - 1
        elif p.text == "]" and f.ts[opens(f.ts, i - 1) - 1].text == "#":
            i = opens(f.ts, i - 1) - 1
        else:
            return i


def function_of(f, i):
    """The index of the `fn` whose signature holds the clause at `i`."""
    j = i - 1
    while j >= 0:
        t = f.ts[j]
        if t.kind == "p" and t.text in CLOSE:
            if t.text == "}":
                return None
            j = opens(f.ts, j) - 1
            continue
        if t.kind == "word" and t.text == "fn":
            return j
        if t.text in ("|", "||", ";") or (t.kind == "p" and t.text in OPEN):
            return None
        j -= 1
    return None

def merged(a, b):
    """Space of two places as that of one."""
    if "//" in b:
        return b if b.startswith("\n") else "\n" + b
    return "\n\n" + b.rsplit("\n", 1)[-1] if a.count("\n") > 1 or b.count("\n") > 1 else b or a


def type_behind(f, i):
    """The name of the type that is declared behind `i`."""
    while f.ts[i].text not in ("struct", "enum"):
        i += 1
    return f.ts[i + 1].text


def has_own_debug(f, i):
    """Whether the type declared behind `i` has an `impl` of `Debug` in the file."""
    name = type_behind(f, i)
    return re.search(r"Debug for %s\b" % name, joined(f.ts)) is not None


def item_end(f, i):
    """The index behind the item whose keyword is at `i`: behind its braces, or its `;`."""
    j = i
    if f.ts[i].text == "use":
        while f.ts[j].text != ";":
            j += 1
        return j + 1
    while True:
        t = f.ts[j]
        if t.text == ";" and t.kind == "p":
            return j + 1
        if t.text == "{":
            return close(f.ts, j) + 1
        if t.kind == "p" and t.text in "([":
            j = close(f.ts, j)
        j += 1


def drop_item(f, i):
    """Drops the item whose keyword is at `i`, with what documents it."""
    start, end = item_start(f, i), item_end(f, i)
    pre = without_doc(f.ts[start].pre)
    del f.ts[start:end]
    f.ts[start].pre = pre.rstrip() + "\n\n" + f.ts[start].pre.lstrip("\n") if "//" in pre else merged(pre, f.ts[start].pre)
    return start



def base(text):
    """The name of a type, without references, lifetimes, paths and arguments."""
    text = re.sub(r"^(& |mut |'\w+ |dyn |impl )*", "", text)
    m = re.match(r"((?:\w+ :: )*)(\w+)", text)
    return m.group(2) if m else "?"


def enclosing(f, i):
    """The span of the innermost function that holds the token, and the type of the `impl` around it."""
    self_type, fn, j = None, None, i
    while j > 0:
        t = f.ts[j]
        if t.kind == "p" and t.text == "}":
            j = opens(f.ts, j) - 1
            continue
        if t.kind == "word" and t.text == "fn" and fn is None:
            fn = j
        if t.kind == "word" and t.text == "impl" and f.ts[j - 1].text not in (":", "&", "(", ",", "mut", "->", "<", "+"):
            k = angles(f.ts, j + 1) if f.ts[j + 1].text == "<" else j + 1
            body = k
            while f.ts[body].text != "{":
                body += 1
            head = f.ts[k:body]
            texts = [x.text for x in head]
            if "for" in texts:
                head = head[texts.index("for") + 1:]
            self_type = base(plain(head))
            break
        if t.kind == "word" and t.text == "trait":
            self_type = f.ts[j + 1].text
            break
        j -= 1
    return fn if fn is not None else 0, self_type


def owner(f, i):
    """The block around the token at `i` that is an `impl` or a trait: its kind (`impl`, `impl of a trait`, `trait`, `pub trait` or
    nothing) and the name of its type or trait."""
    stack, pending = [], None
    for j in range(i):
        t = f.ts[j]
        if t.kind == "word" and t.text == "impl" and f.ts[j - 1].text in ("}", ";", "]", "{", "unsafe") or t.text == "impl" and j == 0:
            k = angles(f.ts, j + 1) if f.ts[j + 1].text == "<" else j + 1
            body = k
            while f.ts[body].text != "{":
                body += 1
            texts = [x.text for x in f.ts[k:body]]
            of_trait = "for" in texts
            head = f.ts[k + texts.index("for") + 1:body] if of_trait else f.ts[k:body]
            pending = ("impl of a trait" if of_trait else "impl", base(plain(head)))
        elif t.kind == "word" and t.text == "trait":
            pending = ("pub trait" if f.ts[j - 1].text == "pub" else "trait", f.ts[j + 1].text)
        elif t.kind == "p" and t.text == "{":
            stack.append(pending)
            pending = None
        elif t.kind == "p" and t.text == "}":
            stack.pop()
        elif t.text == ";":
            pending = None
    return next((it for it in reversed(stack) if it), ("", ""))

"""Removes the allocator and the runtime handle: parameters, fields, arguments and variables."""
import re

from source import drop_item, without_doc
from tokens import OPEN, Refused, Token, close, elements, plain

RUNTIMES = ("HostRuntime", "& HostRuntime", "& impl Abort", "& impl Clock", "& R")
ALLOC_VALUES = ("alloc", "_alloc", "self . alloc", "rt . alloc ( )", "rt", "& rt", "self . rt", "* alloc")


def drop_bounds(f):
    """Drops the bound `Drop` of types."""
    for bound in ("Drop",):
        i = 0
        while i < len(f.ts):
            t = f.ts[i]
            if t.kind == "word" and t.text == bound:
                a, b = f.ts[i - 1], f.ts[i + 1]
                if a.text == "::" or a.text in ("{", ",") and b.text in (",", "}"):
                    i += 1  # a variant of an enum
                elif a.text == "+":
                    del f.ts[i - 1:i + 1]
                elif b.text == "+":
                    f.ts[i + 2].pre = t.pre
                    del f.ts[i:i + 2]
                elif a.text == ":" and b.text in (",", ">", ";", "{", "="):
                    del f.ts[i - 1:i + 1]
                else:
                    f.refuse(t, f"{bound} that is no bound")
                continue
            i += 1


def remove_element(f, start, end, closing):
    """Removes an element of a list, with one comma."""
    if end < closing:           # a comma follows
        nxt = f.ts[end + 1]
        if "//" not in nxt.pre:
            nxt.pre = f.ts[start].pre if "//" not in f.ts[start].pre else f.ts[start].pre.split("//")[0]
        del f.ts[start:end + 1]
    else:                       # it is the last
        if f.ts[start - 1].text == ",":
            del f.ts[start - 1:end]
        else:
            del f.ts[start:end]


def is_memory(text):
    """Whether a value is the allocator or a handle."""
    return text in ALLOC_VALUES or re.fullmatch(r"\* [\w. ]+ \. allocator \( \)|(?:\w+ \. )+alloc(?: \( \))?", text) is not None


def drop_memory(f):
    """The allocator and the handle: parameters, fields, arguments and `let`s, and methods that return the allocator."""
    drop_getters(f)
    drop_lets(f)
    drop_from_macros(f)
    drop_from_lists(f)


def drop_getters(f):
    """Drops each method `fn alloc(&self) -> Global`."""
    i = 0
    while i < len(f.ts):
        i = drop_item(f, i) if plain(f.ts[i:i + 9]) == "fn alloc ( & self ) -> Global {" else i + 1


def drop_lets(f):
    """Drops `let alloc = ..;` and `let rt = ..;`."""
    i = 0
    while i < len(f.ts):
        if plain(f.ts[i:i + 3]) in ("let alloc =", "let rt ="):
            j = i
            while f.ts[j].text != ";":
                j = close(f.ts, j) + 1 if f.ts[j].text in OPEN and f.ts[j].kind == "p" else j + 1
            value = plain(f.ts[i + 3:j])
            if not is_memory(value):
                f.refuse(f.ts[i], f"what alloc is made of: {value}")
            pre = f.ts[i].pre
            del f.ts[i:j + 1]
            f.ts[i].pre = pre if "//" not in f.ts[i].pre else pre.rstrip(" \t\n") + f.ts[i].pre
            continue
        i += 1


def drop_from_macros(f):
    """Drops the allocator or the handle in front of `;` in a macro."""
    i = 0
    while i < len(f.ts):
        t = f.ts[i]
        if t.kind == "word" and f.ts[i + 1].text == "!" and f.ts[i + 2].text in ("(", "["):
            end = close(f.ts, i + 2)
            semi = next((j for j in range(i + 3, end) if f.ts[j].text == ";" and f.ts[j].kind == "p"), None)
            if semi is not None:
                head = plain(f.ts[i + 3:semi])
                inner = head[3:] if head.startswith("in ") else head
                if t.text == "vec" and not head.startswith("in "):
                    pass
                elif is_memory(inner):
                    del f.ts[i + 3:semi + 1]
                    if f.ts[i + 3].pre == " ":
                        f.ts[i + 3].pre = ""
                    end = close(f.ts, i + 2)
                    if head.startswith("in ") or t.text in ("println", "eprintln", "print"):
                        if f.ts[end + 1].text != "?":
                            f.refuse(t, f"{t.text}! whose answer is not asked with ?")
                        if t.text == "format" and f.is_library:
                            f.refuse(t, "format! in the library would abort when memory runs out")
                        if t.text == "vec" and f.is_library:
                            fill(f, i, end)
                        else:
                            del f.ts[end + 1]
                else:
                    f.refuse(t, f"a macro with {head!r} before ;")
        i += 1


def fill(f, i, end):
    """`vec![x; n]?` of the library becomes a call that reports out of memory. A list of items is refused: it has no such call."""
    semi = next((j for j in range(i + 3, end) if f.ts[j].text == ";" and f.ts[j].kind == "p"), None)
    if semi is None:
        f.refuse(f.ts[i], "vec! of items in the library")
    line = f.ts[i].line
    f.ts[semi].text, f.ts[end].text = ",", ")"
    f.ts[i].text = "Vec"
    f.ts[i + 1:i + 3] = [Token("", "::", "p", line), Token("", "try_filled", "word", line), Token("", "(", "p", line)]
    f.needs.add("TryVec")


def drop_from_lists(f):
    """Drops parameters, arguments and fields, one after another."""
    i = 0
    while i < len(f.ts):
        if f.ts[i].kind == "p" and f.ts[i].text in ("(", "{"):
            while drop_one(f, i):
                pass
        i += 1


def drop_one(f, i):
    """Drops the first element with an allocator of the list at `i`; whether there was one."""
    try:
        found, end = elements(f.ts, i)
    except Refused:
        return False
    for a, b in found:
        text = plain(f.ts[a:b])
        is_gone = is_parameter(text) if f.ts[i].text == "(" else is_field(f, text, a, b, end)
        if is_gone:
            if f.ts[i].text == "{":
                if not struct_like(f, i):
                    f.refuse(f.ts[a], "alloc in braces")
                f.ts[a].pre = without_doc(f.ts[a].pre)
            remove_element(f, a, b, end)
            return True
    return False


def is_parameter(text):
    """Whether the element of a list is an allocator or a handle, as a value or with its type."""
    m = re.fullmatch(r"(mut )?(_?alloc|rt) : (.*)", text)
    return is_memory(text) or bool(m) and m.group(3) in ("Global",) + RUNTIMES


def is_field(f, text, a, b, end):
    """Whether the element between braces, from `a` to `b`, is a field of a struct that holds an allocator."""
    bare = re.sub(r"^(# \[ [^\]]* \] )*", "", text)
    if not (re.fullmatch(r"(pub (\( \w+ \) )?)?_?alloc : Global", bare) or bare in ("alloc", "_alloc")):
        return False
    is_alone = bare == "alloc" and b == end and f.ts[a - 1].text == "{"
    return (b < end or f.ts[a - 1].text in ("{", ",")) and not is_alone


def struct_like(f, i):
    """Whether the brace at `i` is that of a struct, of a literal or of a pattern."""
    p = f.ts[i - 1]
    return p.kind == "word" or p.text == ">"



"""Rewrites forms that Rattle has and Rust lacks."""
import re

from layout import DEFAULT_BODIES
from source import document, item_end, item_start
from tokens import Token, angles, close, elements, plain, tokens


def put_forms(f):
    """Rewrites `prove!`, `fmt` with a writer, boxes of traits, and structs without fields."""
    i = 0
    while i < len(f.ts):
        t = f.ts[i]
        p = plain(f.ts[i:i + 5])
        if p == "const _ : ( )" and plain(f.ts[i + 5:i + 9]) == "= prove ! (":
            f.ts[i + 6].text = "assert"
        elif t.kind == "word" and t.text in ("prove", "prove_eq", "prove_ne") and f.ts[i + 1].text == "!":
            t.text = "debug_assert" + t.text[5:]
        elif t.text == "fn" and f.ts[i + 1].text == "fmt" and f.ts[i + 2].text == "<":
            k = angles(f.ts, i + 2)
            bound = plain(f.ts[i + 2:k])
            if not re.fullmatch(r"< W : (fmt :: )?Write >", bound):
                f.refuse(t, "fmt with " + bound)
            del f.ts[i + 2:k]
            end = close(f.ts, i + 2)
            text = plain(f.ts[i + 2:end + 1])
            m = re.fullmatch(r"\( & self , (\w+) : & mut ((?:fmt :: )?)Formatter < W > ,? ?\)", text)
            if not m:
                f.refuse(t, "fmt with " + text)
            f.ts[i + 2:end + 1] = tokens(f"(&self, {m.group(1)}: &mut {m.group(2).replace(' ', '')}Formatter<'_>)")[:-1]
        elif p.startswith("Box < dyn ") and f.ts[i + 4].text == ">":
            f.ts[i + 4:i + 4] = tokens(" + Send + Sync")[:-1]
        elif t.kind == "word" and t.text == "struct" and (plain(f.ts[i + 2:i + 4]) == "{ }" or f.ts[i + 2].text == ";"):
            if f.ts[i + 2].text == "{":
                f.ts[i + 2:i + 4] = [Token("", ";", "p", t.line)]
            f.known.units.add(f.ts[i + 1].text)
            start = item_start(f, i)
            if f.ts[start].text == "pub":
                more = tokens("#[derive(Clone, Copy, Debug)]\n")
                more[0].pre, f.ts[start].pre = f.ts[start].pre, "\n"
                f.ts[start:start] = more[:-1]
                i += len(more)
        i += 1


def default_bodies(f):
    """Gives methods of traits the bodies that they have in Rust."""
    of = f.path.split("crates/")[-1]
    for name, body in [(name, body) for (path, name), body in DEFAULT_BODIES.items() if path == of]:
        places = [i for i, t in enumerate(f.ts) if t.text == "fn" and f.ts[i + 1].text == name]
        if len(places) != 1:
            f.refuse(f.ts[0], f"{len(places)} methods {name}")
        end = next(i for i in range(places[0], len(f.ts)) if f.ts[i].text in (";", "{"))
        if f.ts[end].text != ";":
            f.refuse(f.ts[end], f"{name} has a body")
        f.ts[end:end + 1] = tokens(f" {{\n{body}\n}}\n")[:-1]
        document(f.ts[item_start(f, places[0])], [f"The default body returns `{body}`."])


def unit_literals(f):
    """Literals of structs without fields lose their braces."""
    i = 0
    while i < len(f.ts):
        t = f.ts[i]
        if t.kind == "word" and t.text in f.known.units and plain(f.ts[i + 1:i + 3]) == "{ }" and f.ts[i - 1].text not in ("for", "struct", "impl"):
            del f.ts[i + 1:i + 3]
        i += 1


def mark_unused(f):
    """A parameter that only clauses named gets `_` before its name."""
    i = 0
    while i < len(f.ts):
        if f.ts[i].kind == "word" and f.ts[i].text == "fn" and f.ts[i + 1].kind == "word":
            k = i + 2
            if f.ts[k].text == "<":
                k = angles(f.ts, k)
            if f.ts[k].text != "(":
                i += 1
                continue
            end = item_end(f, k)
            if f.ts[end - 1].text == "}":
                body = close(f.ts, k) + 1
                while f.ts[body].text != "{":
                    body += 1
                used = {t.text for t in f.ts[body:end] if t.kind == "word"}
                texts = " ".join(t.text for t in f.ts[body:end] if t.kind == "text")
                for a, b in elements(f.ts, k)[0]:
                    m = f.ts[a + 1] if f.ts[a].text == "mut" else f.ts[a]
                    if m.kind == "word" and m.text not in ("self", "mut") and not m.text.startswith("_") and f.ts[a + (m is not f.ts[a]) + 1].text == ":":
                        if m.text not in used and not re.search(r"\{%s\b" % m.text, texts):
                            m.text = "_" + m.text
        i += 1



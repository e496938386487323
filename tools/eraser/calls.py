"""Gives each call that may fail to allocate the name of a method of `crate::memory`."""
import re

from known import COLLECTIONS
from source import base, enclosing, item_end
from tokens import Token, angles, close, opens, plain

# Receivers whose types the eraser does not find by itself: file below `crates`, and text, to the name of the type.
HINTS = {("codec_payload_queue/src/above.rt", "tiers[tier]"): "VecDeque"}

FALLIBLE = {"push": "try_push", "push_front": "try_push_front", "push_back": "try_push_back", "extend_from_slice": "try_extend",
            "resize": "try_resize", "insert": "try_insert", "reserve": "try_room", "reserve_exact": "try_exact",
            "shrink_to": "shrink_if_possible", "push_reserved": "push", "push_back_reserved": "push_back", "push_front_reserved": "push_front"}
# Calls that allocate and have no form that can refuse in Rust.
COPIES = ("clone", "to_vec", "collect", "to_string", "to_owned")
TRAIT = {"Vec": "TryVec", "VecDeque": "TryQueue"}
STD = COLLECTIONS


def declared(f, name, lo, hi):
    """The types that a name is declared with between two tokens."""
    found = set()
    for j in range(lo, hi):
        if f.ts[j].kind != "word" or f.ts[j].text != name:
            continue
        if f.ts[j + 1].text == ":" and f.ts[j + 1].kind == "p" and f.ts[j - 1].text in ("(", ",", "{", "let", "mut", "pub", "]", ")", "|"):
            k, depth = j + 2, 0
            while k < hi:
                x = f.ts[k].text
                if x in ("<", "(", "["):
                    depth += 1
                elif x in (">", ")", "]"):
                    depth -= 1
                    if depth < 0:
                        break
                elif depth == 0 and x in (",", "=", ";", "}", "|"):
                    break
                k += 1
            if f.ts[k].text in (",", ")", "=", ";", "}", "|"):
                text = plain(f.ts[j + 2:k])
                if re.match(r"(& |mut |'\w+ |dyn |impl )*(\w+ :: )*[A-Z]\w*", text):
                    found.add(base(text))
        elif f.ts[j - 1].text in ("let", "mut") and f.ts[j + 1].text == "=":
            k = j + 2
            while f.ts[k].text in ("&", "mut", "*"):
                k += 1
            path = []
            while f.ts[k].kind == "word" or f.ts[k].text in ("::", "."):
                if f.ts[k].text == "::" and f.ts[k + 1].text == "<":
                    k = angles(f.ts, k + 1)
                    continue
                path.append(f.ts[k].text)
                k += 1
            if f.ts[k].text == "!" and path == ["vec"]:
                found.add("Vec")
            elif f.ts[k].text == "(" and path:
                if len(path) >= 3 and path[-2] == "::":
                    if path[-3][:1].isupper():
                        found.add(path[-3])     # Type::new(..) and the like answer the type
                    else:
                        found |= f.known.answers.get(path[-1], {"?"})
                else:
                    found |= f.known.answers.get(path[-1], {"?"})
            elif f.ts[k].text == "{" and path and path[-1][:1].isupper():
                found.add(path[-1])
            elif len(path) == 1 and path[0] != name:
                found |= declared(f, path[0], lo, hi)
            elif path and path[-1] != name and "." in path:
                found |= f.known.fields.get(path[-1], {"?"})
    return found


def receiver(f, i):
    """Of the method at `i`, the first token of what it is called on, and the types that may have."""
    j = i - 2
    last = None
    k = j
    if f.ts[k].text == ")":
        k = opens(f.ts, k)
        last = ("call", f.ts[k - 1].text)
        k -= 1
    elif f.ts[k].text == "]":
        last = ("index", None)
        k = opens(f.ts, k) - 1
        if f.ts[k].kind == "word":
            last = ("index", f.ts[k].text)
    elif f.ts[k].kind == "word":
        last = ("name", f.ts[k].text)
    elif f.ts[k].text == "?":
        last = ("?", None)
    first = k
    while f.ts[first - 1].text == ".":
        first -= 2
        while f.ts[first].kind == "p" and f.ts[first].text in (")", "]", "?"):
            first = first - 1 if f.ts[first].text == "?" else opens(f.ts, first) - 1
    while f.ts[first - 1].text == "::":
        first -= 2
    return first, last


def types_of(f, i):
    """The first token of the receiver of the method at `i`, and the types that the receiver may have."""
    first, last = receiver(f, i)
    fn, self_type = enclosing(f, i)
    if last is None:
        return first, {"?"}
    kind, name = last
    if kind == "name":
        if name == "self":
            return first, {self_type}
        if f.ts[i - 3].text == ".":
            found = {t for t in f.known.fields.get(name, set())}
            own = {t for t in f.known.fields_of.get(self_type, {}).get(name, set())} if f.ts[i - 4].text == "self" else set()
            return first, own or found or {"?"}
        end = item_end(f, fn) if fn else len(f.ts)
        found = declared(f, name, fn, end)
        return first, found or {"?"}
    if kind == "call":
        return first, f.known.answers.get(name, {"?"})
    return first, {"?"}


def rename_calls(f):
    """Calls that may fail to allocate get names of their own, unless the type has a method of that name itself."""
    i = 1
    while i < len(f.ts):
        t = f.ts[i]
        if t.kind == "word" and f.ts[i - 1].text == "." and f.ts[i + 1].text == "(":
            if t.text in FALLIBLE or t.text == "push_str":
                i += rename_fallible(f, i)
            elif t.text == "slice_mut":
                index_by_range(f, i)
            elif t.text in COPIES and plain(f.ts[i + 1:i + 4]) == "( ) ?":
                if f.is_library:
                    f.refuse(t, f"{t.text}()? would abort when memory runs out: use a call that can refuse, as extend_from_slice")
                del f.ts[i + 3]
            elif t.text == "allocator":
                f.refuse(t, "allocator()")
        i += 1


def rename_fallible(f, i):
    """Renames the call at `i` by the type of its receiver; returns how many tokens were put in front of it."""
    t = f.ts[i]
    first, types = types_of(f, i)
    own = f.known.methods.get(t.text, set())
    end = close(f.ts, i + 1)
    hint = HINTS.get((f.path.split("crates/")[-1], plain(f.ts[first:i - 1]).replace(" ", "")))
    # Other types have no such method. rustc refuses a wrong choice: `try_push` or the result does not exist then.
    types = {hint} if hint else types
    types = {x for x in types if x in STD or x in own or x in ("String", "HashMap")}
    if types in ({"String"}, {"HashMap"}):
        return without_result(f, first, end)
    if types and types <= STD:
        if plain(f.ts[end + 1:end + 5]) == ". unwrap ( )":
            del f.ts[end + 1:end + 5]  # room was made before, which is proved
        else:
            t.text = FALLIBLE[t.text]
            if t.text not in FALLIBLE:  # a method of a trait of `crate::memory`
                f.needs |= {TRAIT[x] for x in types if x in TRAIT}
    elif not types or not types <= own:
        f.refuse(t, f"{t.text} on {plain(f.ts[first:i - 1])!r} of types {sorted(map(str, types))}; "
                    f"of its own it is a method of {sorted(own)}")
    return 0


def without_result(f, first, end):
    """A call that cannot fail in Rust: drops the `?` behind it, or makes its answer `Ok`."""
    if f.ts[end + 1].text == "?":
        del f.ts[end + 1]
        return 0
    t = f.ts[first]
    pre, t.pre = t.pre, ""
    f.ts.insert(end + 1, Token("", ")", "p", t.line))
    f.ts[first:first] = [Token(pre, "Ok", "word", t.line), Token("", "(", "p", t.line)]
    return 2


def index_by_range(f, i):
    """`x.slice_mut(range)` becomes `&mut x[range]`."""
    first, _ = receiver(f, i)
    t = f.ts[i]
    end = close(f.ts, i + 1)
    f.ts[end].text, f.ts[i + 1].text = "]", "["
    del f.ts[i - 1:i + 1]
    if f.ts[end - 1].text != ".":
        pre = f.ts[first].pre
        f.ts[first].pre = ""
        f.ts[first:first] = [Token(pre, "&", "p", t.line), Token("", "mut", "word", t.line)]
        f.ts[first + 2].pre = " "


def rename_makers(f):
    """Calls that make a collection or a box get names of their own."""
    i = 0
    while i < len(f.ts):
        p = plain(f.ts[i:i + 4])
        t = f.ts[i]
        if p == "Vec :: with_capacity (":
            f.ts[i + 2].text = "try_of_capacity"
            f.needs.add("TryVec")
        elif p == "Vec :: from_slice (":
            f.ts[i + 2].text = "try_from_slice"
            f.needs.add("TryVec")
        elif p == "Box :: new (":
            f.ts[i].text, f.ts[i + 2].text = "One", "try_new"
            f.needs.add("One")
        elif p.startswith("Box < ") and f.ts[i + 2].text != "dyn":
            f.ts[i].text = "One"
            f.needs.add("One")
        elif p == "String :: from_str (":
            f.ts[i + 2].text = "from"
            end = close(f.ts, i + 3)
            if f.ts[end + 1].text == "?":
                del f.ts[end + 1]
            else:
                f.refuse(t, "String::from_str whose answer is not asked with ?")
        i += 1



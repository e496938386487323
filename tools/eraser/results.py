"""Marks the functions whose result a caller must not drop: rustc warns where one does."""
from tokens import angles, close, tokens

# Results that the proved sources drop.
DROPPED = {"held", "pop_front"}


def mark_results(f):
    """Public functions that only compute something, and those that hand out what may be there, such as a popped unit."""
    for i in range(len(f.ts) - 2, -1, -1):
        if f.ts[i].text != "pub":
            continue
        name = i + (3 if f.ts[i + 1].text == "const" else 2)
        if f.ts[name - 1].text != "fn":
            continue
        if f.ts[name].text not in DROPPED and is_for_its_result(f, name):
            marks = tokens("#[must_use]")[:-1]
            marks[0].pre, f.ts[i].pre = f.ts[i].pre, "\n"
            f.ts[i:i] = marks


def is_for_its_result(f, name):
    """Whether the function with its name at this place is called for its result alone, or returns an option."""
    begin = angles(f.ts, name + 1) if f.ts[name + 1].text == "<" else name + 1
    end = close(f.ts, begin)
    if f.ts[end + 1].text != "->":
        return False
    result = next(it.text for it in f.ts[end + 2:] if it.kind == "word" and it.text != "mut")
    if result == "Result":
        return False
    return result == "Option" or not changes(f, begin, end)


def changes(f, begin, end):
    """Whether one of the parameters between these places is a mutable reference."""
    return any(one.text == "&" and "mut" in (two.text, three.text)
               for one, two, three in zip(f.ts[begin:end], f.ts[begin + 1:end], f.ts[begin + 2:end + 1]))

#!/usr/bin/env python3
"""Writes each main theorem in reading order, as one file: docs/proof/NAME.txt.

  scripts/theorem.py                      writes the files
  scripts/theorem.py --check              compares them with the sources; the status is 1 if one differs
  scripts/theorem.py CRATE MODULE NAME    prints another statement: NAME is a definition of crates/CRATE/specs/MODULE.antt
  option --alone                          without the clause and the way from it to the definition
  scripts/theorem.py --whole NAME         prints a file of docs/proof without stops, and without what it takes from other files

scripts/theorem_files.py says what each file has: its statements, its words, its parts, and its stops. A stop is a definition that is
named and not expanded: the file says what it is, how much is not shown, and the command that shows it. The rules for stops stand there.

A file begins with the `ensures` clause of the public function of that crate from which NAME is reached by the fewest definitions; then
come all definitions that the statement reaches. A record on the way from the clause to NAME is cut to the fields that lead there.

The order: each definition once all that use it have been read, near its user, those that reach little before those that reach
much; a type just before the first definition that speaks of its fields. A type that is only passed on is named at the end.

What it follows: names, through `use` lines, renamed imports and re-exports in Lib.antt; Rust types named by `declared` modules,
shown as in the source with their invariants. Types are cut to the parts that are spoken of. Bound variables, fields and labels are
not followed, nor names in an invariant. It goes by lines and names, not by the grammar of Rattle: a local name of `let` that is
also the name of a definition counts as a use of it.
"""
import argparse
import os
import re
import sys
import textwrap

from theorem_files import FILES, STOPS, words_of
from theorem_reader import HEAD, MARK, STANDARD, TOKEN, TOLD, Project, said


class Theorem:
    """What a statement reaches, in the order of reading."""

    def __init__(self, project, targets, alone=False, stops=None, known=None, fields=None):
        """`targets`: (crate, module, name) of each, and the function if it is not the nearest; `stops`: keys of definitions that are not
        expanded, each with the reason; `known`: those of other files; `fields`: by key of a record, the fields that are not shown, and why."""
        self.p, self.uses, self.standard, self.cut, self.stops, self.known = project, {}, {}, {}, {}, known or {}
        self.ways = [self.way_to(alone, *target) for target in targets]
        self.target, self.stops = self.ways[0][-1], stops or {}
        for way in self.ways:
            for before, after in zip(way, way[1:]):
                if before.kind == 'record':
                    self.cut_record(before, [w[w.index(before) + 1] for w in self.ways if before in w[:-1]])
        for key, dropped in (fields or {}).items():
            self.cut_fields(self.p.defs[key], *dropped)
        self.defs = self.reached([way[0] for way in self.ways])

    def way_to(self, alone, crate, module, name, function=''):
        """The shortest way from a clause of the crate to the definition."""
        target = self.p.find(f'{crate}.{module}', name)
        if not target:
            sys.exit(f'no definition {name} in {crate}/specs/{module}.antt')
        return [target] if alone else self.way_up(crate, target, function)

    def reached(self, roots, without=()):
        """What these definitions reach; `without` is not followed."""
        got, stack = {}, list(roots)
        while stack:
            d = stack.pop()
            if d.key not in got and d.key not in without:
                got[d.key] = d
                stack += [u for u in self.used(d) if u.key not in self.known or self.is_type(u) or any(u in way for way in self.ways)]
        return got

    def signature(self, d):
        """The lines of a definition in front of its first clause or field."""
        head = next((i for i, l in enumerate(d.lines) if re.match(r'%s(\s.*)?=( |$)' % re.escape(d.name), l) and not HEAD.match(l)), len(d.lines))
        return [re.sub(r' where$', '', d.lines[0])] if d.kind != 'def' else d.lines[:head]

    def used(self, d):
        """The definitions that one uses, in the order of mention."""
        if d.key not in self.uses:
            got, lines = {}, [d.note] if d.kind == 'clause' else self.signature(d) if d.key in self.stops else self.cut.get(d.key, d.lines)
            for t, r in self.p.names(d, lines) if d.kind != 'rust' else ():
                if r is not None and r.key != d.key:
                    got.setdefault(r.key, r)
                elif r is None and (t.strip('◌').split('.')[0] in STANDARD or t in d.imports):
                    self.standard.setdefault(t.strip('◌').split('.')[0], d.imports.get(t))
            self.uses[d.key] = list(got.values())
        return self.uses[d.key]

    def way_up(self, crate, target, function):
        """The shortest way from a clause of the crate to the target; of this function, if it is named."""
        ways, seen = [[clause] for clause in self.p.clauses(crate) if not function or clause.name.split('.')[0] == function], set()
        while ways and ways[0][-1] is not target:
            way = ways.pop(0)
            more = [d for d in self.used(way[-1]) if d.key not in seen and d.module.startswith(crate)]
            seen |= {d.key for d in more}
            ways += [way + [d] for d in more]
        self.standard, self.uses = {}, {}
        return ways[0] if ways else [target]

    def cut_record(self, d, after):
        """Leaves only the fields of a record that lead to the next definitions of the ways."""
        keep, dropped, take = [], 0, True
        for line in d.lines:
            if re.match(r'\s+pub ', line):
                take = any(r in after for _, r in self.p.names(d, [line]))
                dropped += not take
            keep += [line] * take
        self.cut[d.key] = keep + ([f'  -- … and {dropped} other fields'] if dropped else [])

    def cut_fields(self, d, dropped, why):
        """Leaves out these fields of a record, and names them."""
        names = [re.match(r"\s+(?:pub )?([\w'\-]+) :", l) for l in d.lines]
        kept = [l for l, m in zip(d.lines, names) if not m or m.group(1) not in dropped]
        self.cut[d.key] = kept + wrapped(f'not shown: {", ".join(dropped)}. {why}', '  -- … ', '  -- ')

    def is_type(self, d):
        """Whether it is a type of data, not a proposition or a function."""
        return d.key not in self.stops and (d.kind == 'rust' or bool(re.match(r'(pub )?(record|data) \S+ : Type 0 where|(abbrev|unfoldable) (pub )?\S+ : Type 0$', d.lines[0])))

    def parts(self, d):
        """The fields or constructors of a type."""
        text = '\n'.join(d.lines)
        return set(re.findall(r"^ +(?:pub )?([\w'\-]+) :", text, re.M)) if d.kind != 'rust' else set(re.findall(r'^ +(?:pub(?:\([a-z]+\))? )?(\w+)(?=[:({,]| \{)', text, re.M)) | ({'0'} if re.search(r'struct \w+(<.*?>)?\(', text) else set())

    def shown_lines(self, d):
        """The lines in which a definition speaks."""
        return [d.note] if d.kind == 'clause' else self.signature(d) if d.key in self.stops else d.lines

    def spoken(self, d, types):
        """The types, among those named by a definition and inside these, of which it speaks."""
        code = ' '.join(re.split(r'(?:^|\s)--(?:\s|$)', l)[0] for l in self.cut.get(d.key, self.shown_lines(d)))
        fields = set(re.findall(r"\.([\w'\-]+)", code)) | set(re.findall(r"[{;] *([\w'\-]+) = ", code))
        words = set(re.findall(r"(?<![\w'])[A-Za-z][\w'\-]*", code))
        self.fields, self.words = self.fields | fields, self.words | words
        seen, stack, out = set(), [u for u in self.used(d) if u.key in types], []
        while stack:
            t = stack.pop(0)
            if t.key not in seen:
                seen.add(t.key)
                if t.kind == 'def' or self.parts(t) & (words if t.kind == 'data' or ' enum ' in f' {t.lines[0]}' else fields):
                    out.append(t)
                    stack += [u for u in self.used(t) if u.key in types]
        return out

    def parts_of(self, parts):
        """For each part, its definitions: the statement, then each (title, roots) of `parts` with what only it and later parts reach."""
        roots = [[d for d in self.defs.values() if d.name in names and d.kind != 'rust'] for _, names in parts]
        first, out, done = [way[0] for way in self.ways], [], set()
        for i in range(len(parts) + 1):
            later = {d.key for ds in roots[i:] for d in ds}
            got = {k: d for k, d in self.reached(first if i == 0 else roots[i - 1], later).items() if k not in done}
            done |= {k for k, d in got.items() if not self.is_type(d) or any(d in way for way in self.ways)}
            out.append(got)
        return out

    def order(self, parts=()):
        """The definitions in the order of reading, as a list for each part."""
        done, self.fields, self.words = set(), set(), set()
        ways = [d for way in self.ways for d in way]
        types = {k for k, d in self.defs.items() if d not in ways and self.is_type(d)}  # a statement without arguments looks like a type
        groups = self.parts_of(parts)
        out = [self.order_part(group, types, done) for group in groups]
        self.opaque = [self.defs[k] for k in sorted(types - done)]
        return out

    def order_part(self, group, types, done):
        """The definitions of a part in the order of reading; `done` has those that were shown."""
        out, rest = [], {k: [u for u in self.used(d) if u.key not in types and u.key in group] for k, d in group.items() if k not in types}
        reach = {}
        for k in rest:
            todo, reach[k] = [k], set()
            while todo:
                new = {u.key for u in rest[todo.pop()]} - reach[k]
                reach[k] |= new
                todo += new
        waiting = {k: sum(any(u.key == k for u in us) for us in rest.values()) for k in rest}
        first = [way[0].key for way in self.ways]
        met = sorted((k for k in rest if not waiting[k]), key=lambda k: first.index(k) if k in first else len(first))
        stack = [self.defs[k] for k in reversed(met)]
        while stack or any(k not in done for k in rest):
            d = stack.pop() if stack else self.defs[next(k for k in met + list(rest) if k not in done)]  # else a cycle
            if d.key in done:
                continue
            spoken = self.spoken(d, types)
            for t in [d] + spoken if d.kind == 'clause' else spoken + [d]:
                if t.key not in done:
                    done.add(t.key)
                    out.append(t)
            ready = []
            for u in rest[d.key]:
                waiting[u.key] -= 1
                met += [u.key] if u.key not in met else []
                ready += [u] if waiting[u.key] <= 0 and u.key not in done else []
            stack += sorted(reversed(ready), key=lambda u: -len(reach[u.key]))
        return out

    def merged_names(self):
        """A name for each definition in the one file: with its module if two have the same, and with its crate if two modules have the
        same name too."""
        many, named = {}, {}
        for d in self.defs.values():
            many.setdefault(d.name, []).append(d)
        for ds in many.values():
            modules = {d.key: d.module.split('.')[-2 if d.kind == 'rust' else -1] for d in ds}
            for d in ds:
                crate = d.module.split('.')[0].removeprefix('codec_payload_') + '_' if list(modules.values()).count(modules[d.key]) > 1 else ''
                named[d.key] = d.name if len(ds) == 1 else f'{d.name}_of_{crate}{modules[d.key]}'
        return named

    def cut_parts(self, d, lines):
        """A type of many parts with those that the statement speaks of; comments go with their part."""
        out, held, dropped, said = [lines[0]], [], 0, self.words if ' enum ' in f' {lines[0]}' else self.fields
        for line in lines[1:]:
            part = re.match(r" {2,4}(?:pub(?:\([a-z]+\))? )?([\w'\-]+)", line)
            held.append(line)
            if not line.strip().startswith('--') and line != '}':
                keep = part is None or part.group(1) in said
                out, held, dropped = out + held * keep, [], dropped + (not keep)
        return out + [f'  -- … and {dropped} other parts'] * (dropped > 0) + held if dropped > 2 else lines

    def stand_ins(self, order):
        """Rust types that the shown text names and does not show, with what stands for them in statements, or their one line."""
        shown, out = {d.name for d in order}, []
        code = ' '.join(l.split('--')[0] for d in order if d.kind in ('rust', 'clause') for l in d.lines if 'ensures' not in l)
        for name in [n for n in dict.fromkeys(re.findall(r'\b[A-Z]\w+\b', code)) if n not in shown]:
            for text in self.p.sources.values():
                model = re.search(r'^impl(?:<[^{]*>)? Model for %s\b.*?^\}' % name, text, re.M | re.S)
                value = model and re.search(r'ghost Value = \{ (.*?) \};', model.group(0))
                line = re.search(r'^pub struct %s\(.*\);$' % name, text, re.M)
                if value or line:
                    out.append(f'-- {name}: ' + (f'in statements its value is a {value.group(1)}' if value else line.group(0)))
                    break
        return out

    def text_of(self, d, merged):
        """The lines of a definition, with names of the merged file."""
        lines = self.signature(d) if d.key in self.stops else self.cut.get(d.key, d.lines)
        if d.kind != 'data' and self.is_type(d):
            lines = self.cut_parts(d, lines)
        if d.kind in ('clause', 'rust'):
            return lines
        out = []
        for line in lines:
            code, dash, rest = line.partition('-- ')
            known = {}
            for t, r in self.p.names(d, [code]):
                first, dot, field = t.partition('.')
                named = d.imports.get(first, ('', first))[1]
                if named == '*' and r is not None and r.kind != 'rust':
                    _, dot, field = field.partition('.')  # the alias of a module goes
                if r is not None and r.key in merged and named in ('*', r.name):
                    known[t] = merged[r.key] + dot + field
            code = TOKEN.sub(lambda m: known.get(m.group(0), m.group(0)), code)
            if merged[d.key] != d.name:
                code = re.sub(r"(^|pub |record |data )%s(?=\s|$)" % re.escape(d.name), lambda m: m.group(1) + merged[d.key], code, count=1)
            out.append(re.sub(r'^(abbrev |unfoldable )?pub (?=\S)|^(abbrev|unfoldable) |(?<=^  )pub ', '', code) + dash + rest)
        return out

    def counts(self, order, merged):
        """Of the shown text: definitions of specs, their lines, their modules, Rust types, their lines."""
        lines = {d.key: sum(1 for l in self.text_of(d, merged) if l.strip() and not l.strip().startswith('--')) for d in order}
        specs, rust = [d for d in order if d.kind not in ('rust', 'clause')], [d for d in order if d.kind == 'rust']
        return len(specs), sum(lines[d.key] for d in specs), len({d.module for d in specs}), len(rust), sum(lines[d.key] for d in rust)

    def shown(self):
        """The keys of the definitions that the file shows whole."""
        return [k for k, d in self.defs.items() if k not in self.stops and k not in self.cut and d.kind not in ('clause', 'rust') and not self.is_type(d)]

    def size_behind(self, d):
        """How much a stop stands for: definitions and lines, types whole, and how many of these definitions the file shows nowhere."""
        if d.key not in self.p.sizes:
            self.p.sizes[d.key] = Theorem(self.p, [(*d.module.split('.', 1), d.name)], alone=True).defs
        whole = self.p.sizes[d.key]
        lines = sum(1 for e in whole.values() for l in e.lines if l.strip() and not l.strip().startswith('--'))
        return len(whole), lines, len([k for k in whole if k not in self.defs and k not in self.known])

    def stop_text(self, d):
        """What stands in front of a stop: what it is, what is not shown, and what shows it."""
        crate, module = d.module.split('.', 1)
        return wrapped(f"STOP: {STOPS[f'{d.module}.{d.name}']}", '-- ■ ') + wrapped(f'Why: {self.stops[d.key]}', '-- │ ') + [
            '-- │ It reaches %d definitions in %d lines; %d of the definitions are neither here nor in the files before.' % self.size_behind(d),
            f'-- └ scripts/theorem.py {crate} {module} {d.name} --alone']

    def definition_text(self, d, merged, order, later):
        """A definition with what stands in front of it."""
        if d.kind == 'clause':
            ways = [w for w in self.ways if w[0] is d]
            out = [f'-- THE STATEMENT: what {d.name.split(".")[0]} ({d.module.replace(".src", "/src", 1)}) ensures, proved for all arguments.']
            out += ['-- The way to it: ' + ' → '.join(w.name for w in way[1:]) for way in ways if len(way) > 2]
            return out + d.lines + (self.stand_ins(order) if self.ways[0] in ways else []) + ['']
        out = said(d.comment) or ([f'-- ({d.module}; no comment in the source)'] if d.kind != 'rust' else [])
        out += self.stop_text(d) if d.key in self.stops else []
        below = [f'{u.name}: part {later[u.key]}' for u in self.used(d) if u.key in later]
        return out + ['-- ↓ ' + ', '.join(below)] * bool(below) + self.text_of(d, merged) + ['']

    def renamed_text(self, order):
        """The names of the standard library that stand for another name of it, and the definitions that are named as one. An import as another
        name that the library has, and an operator, make the file wrong."""
        rows = []
        for d in order:
            for t, r in self.p.names(d, [d.note] if d.kind == 'clause' else d.lines):
                first = t.split('.')[0]
                module, inner = d.imports.get(first, ('', '*'))
                if r is None and module.startswith('std.') and inner not in ('*', first):
                    rows.append(f'-- │ {first} in {d.module}: {module.removeprefix("std.")}.{inner} of the standard library')
                    self.p.faults += [f'{d.module}: {fault}' for fault in [self.p.doubtful_import(first, module, inner)] if fault]
        for d in order:
            if d.kind != 'rust' and d.name.strip('◌') in STANDARD and d.kind != 'clause':
                rows.append(f'-- │ {d.name}: not that of the standard library, but the one of {d.module}')
                self.p.faults += [f'{d.module} defines {d.name}, an operator of the standard library'] * ('◌' in d.name)
        rows = list(dict.fromkeys(rows))
        return ['-- ┌─ Names that are not what they are elsewhere', *rows, '-- └─', ''] if rows else []

    def known_text(self):
        """The definitions of other files that this one names, each with the first sentence of its comment."""
        out = {}
        for d in self.defs.values():
            for u in self.used(d):
                if u.key in self.known and u.key not in self.defs:
                    out[u.key] = u
        rows = []
        for file in dict.fromkeys(self.known.values()):
            names = sorted((u for k, u in out.items() if self.known[k] == file), key=lambda u: u.name)
            rows += [f'-- ┌─ Names that {file}.txt explains'] * bool(names)
            for u in names:
                rows += wrapped(f'{u.name:<22} ' + re.split(r'(?<=[.:;]) ', ' '.join(c[3:] for c in said(u.comment)).removeprefix(MARK + ' ') + ' ')[0].rstrip(' .:;'), '-- │ ', '-- │ ' + ' ' * 23)
            rows += ['-- └─', ''] * bool(names)
        return rows

    def front(self, words, order, counts):
        """The lines in front: what the file is, its words, and how to read it."""
        stops = [d.name for d in order if d.key in self.stops]
        named = ', '.join(f'`{way[-1].name}` of {way[-1].module}' for way in self.ways)
        out = [f'-- Generated by scripts/theorem.py from crates/*/specs. Do not edit. {named}{", with stops." if stops else ", and all that it says."}', '--']
        for label, text in words:
            out += wrapped(f'{label}: {text}', '-- ')
        out += ['--'] * bool(words) + [
            counts + ' Read from the top: what a line uses comes after it, types before it.',
            '-- A type of Rust (`struct`, `enum`) is the one that the library has; x.f is its field f. x.old and x.new: an argument before and after the call.']
        if any(said(d.comment) and f'-- {MARK} ' in said(d.comment)[0] for d in order):
            out += [f'-- {MARK}: these words are from scripts/theorem_comments.txt, since the source has none.']
        return out + (wrapped(f'Stops, named and not expanded: {", ".join(stops)}.', '-- ') if stops else [])

    def write(self, words=(), parts=()):
        """The whole file."""
        groups, merged = self.order(parts), self.merged_names()
        order = [d for group in groups for d in group]
        counts = '-- %d definitions in %d lines, from %d modules; %d Rust types in %d lines.' % self.counts(order, merged)
        out = self.front(words, order, counts)
        out += ['', '-- ┌─ Standard names']
        out += [f'-- │ {k:<11} {v}' for k, v in STANDARD.items() if k in self.standard]
        rest = sorted(k for k in self.standard if k not in STANDARD and k not in TOLD)
        out += [f"-- │ also: {', '.join(rest)}"] if rest else []
        out += ['-- └─', ''] + self.renamed_text(order) + self.known_text()
        titles = [title for title, _ in parts]
        later = {d.key: i + 2 for i, group in enumerate(groups[1:]) for d in group if d.name in parts[i][1]}
        for i, group in enumerate(groups):
            out += [f'-- ════ Part {i + 1}: {(["the statement"] + titles)[i]}', ''] if parts else []
            for d in group:
                out += self.definition_text(d, merged, order, {k: n for k, n in later.items() if n > i + 1})
        out += ['-- Types that are passed on, without a word of what is in them: ' + ', '.join(d.name for d in self.opaque)] if self.opaque else []
        return '\n'.join(out + [counts, ''])


def wrapped(text, first, more='-- │ '):
    """The text in lines of at most 132 characters."""
    return textwrap.wrap(text, 132, initial_indent=first, subsequent_indent=more if first.strip() != '--' else first, break_long_words=False, break_on_hyphens=False)


def theorem_of(project, name):
    """The theorem of a file, with its stops, and without what it takes from other files."""
    if name in project.theorems:
        return project.theorems[name]
    known = {}
    for other in FILES[name].get('after', ()):
        known = {**{k: other for k in theorem_of(project, other).shown()}, **known}
    stops = {project.find(*stop.rsplit('.', 1)).key: why for stop, why in FILES[name].get('stops', {}).items()}
    fields = {project.find(*record.rsplit('.', 1)).key: names for record, names in FILES[name].get('without', {}).items()}
    project.theorems[name] = Theorem(project, FILES[name]['statements'], stops=stops, known=known, fields=fields)
    return project.theorems[name]


ROOT = os.path.dirname(os.path.dirname(os.path.realpath(__file__)))


def main():
    """Reads the arguments, and writes or compares the files, or prints one statement."""
    a = argparse.ArgumentParser(description=__doc__, formatter_class=argparse.RawDescriptionHelpFormatter)
    a.add_argument('target', nargs='*', metavar='CRATE MODULE NAME')
    a.add_argument('--alone', action='store_true')
    a.add_argument('--whole', metavar='FILE')
    a.add_argument('--check', action='store_true')
    o = a.parse_args()
    os.chdir(ROOT)
    if o.target or o.whole:
        sys.stdout.write(Theorem(Project('.'), [o.target] if o.target else FILES[o.whole]['statements'], alone=o.alone).write())
        return 0
    stale, project = 0, Project('.')
    for name, file in FILES.items():
        path, text = f'docs/proof/{name}.txt', theorem_of(project, name).write(words_of(name), file.get('parts', ()))
        old = open(path, encoding='utf-8').read() if os.path.isfile(path) else ''
        if o.check and old != text:
            stale += 1
            print(f'{path} is not of these sources: call scripts/theorem.py')
        if not o.check:
            with open(path, 'w', encoding='utf-8') as f:
                f.write(text)
    faults = list(dict.fromkeys(project.faults))
    for fault in faults:
        print(fault)
    print(f'{len(FILES)} theorems, {stale} stale' + f', {len(faults)} faults' * bool(faults))
    return 1 if stale or faults else 0


if __name__ == '__main__':
    sys.exit(main())

"""Reads what scripts/theorem.py shows: definitions of specs, Rust types, clauses of public functions, and the names in them."""
import glob
import os
import re
import textwrap

# the notation and names of the standard library; TOLD: the names that an entry of another name explains
STANDARD = {
    '≡': 'a ≡ b: a and b are equal', '≢': 'a ≢ b: they are not', '⊎': 'P ⊎ Q: P or Q', '↔': 'P ↔ Q: each implies the other', '×': 'P × Q: P and Q; also pairs, with parts .0/.1 or .1/.2. (x : T) × P x: there is an x of type T with P x',
    '→': 'P → Q: P implies Q; also functions. (x : T) → P x: for all x. Nested arrows: all premises, then the conclusion', '⊥': 'false', '⊤': 'true', 'Unit': 'Unit {0}: true; as a type of values, the type with one value', 'ℕ': 'the numbers 0, 1, 2, …',
    'ℤ': 'whole numbers', 'Type': 'Type 0: a proposition (or a type); a record of type `Type 0` holds if all its fields hold', 'λ': 'λ x. e: the function of x', 'Bool': 'true or false', 'not': 'not, &&, ||, ==: on Bool',
    'List': 'finite sequences: [] is empty, x ∷ xs is x before xs', '++': 'xs ++ ys: xs, then ys', 'length': 'the number of items', 'map': 'map f xs: f of each item', 'take': 'take n xs: the first n items', 'drop': 'drop n xs: without the first n',
    'replicate': 'replicate n x: n times x', 'reverse': 'backwards', 'filter': 'the items for which it is true', 'fold': 'combines from the left', 'get_or': 'get_or d xs n: the item at n, or d', 'Option': 'None, or Some x', 'Result': 'Ok x, or Err e',
    'is_some': 'whether it is Some', 'is_none': 'whether it is None', 'is_ok': 'whether it is Ok', 'IfOk': 'IfOk r P: if r is Ok x, then P x', 'IfErr': 'IfErr r P: if r is Err e, then P e', 'OnOk': 'OnOk r P: if r is an Ok, then P',
    'OnErr': 'OnErr r P: if r is an Err, then P', 'IfSome': 'IfSome o P: if o is Some x, then P x', 'IsNone': 'the option is None', 'IsSome': 'it is Some', 'IsTrue': 'b ≡ true', 'IsFalse': 'b ≡ false', 'option_map': 'f of the value, if there is one',
    'unwrap_or': 'the value, or a default', 'slice_get': 'slice_get xs n: Some of the item at n from 0, or None', 'slice_range': 'items from one index up to another', 'All': 'All P xs: P of each item', 'Contains': 'it is an item of the list',
    'position': 'the index of the first item for which it is true, or None', 'if': 'if b then x else y', 'suc': 'n + 1', 'zero': '0', 'pred': 'n - 1, and 0 for 0', '+': 'a - b is 0 if b is greater; / rounds down; % is the remainder; ^ is power',
    '<': 'less', '≤': 'at most', 'min': 'the smaller', 'max': 'the greater', 'bit_and': 'bitwise and', 'bit_or': 'bitwise or', 'bit_xor': 'bitwise xor', 'sum': 'of the items', 'Vec': 'a Rust vector; v.items is its list',
    'Box': "Rust's box; b.value is what is in it", 'String': "Rust's string", 'AllocError': 'out of memory', 'refl': 'a proof of x ≡ x', 'head': 'first item', 'nat_lt': 'less, as Bool', 'nat_le': 'at most, as Bool', 'nat_eq': 'equal, as Bool',
    'set': 'set xs n x: xs with x at n', 'any': 'whether it is true of an item', 'all': 'whether it is true of all', 'IsErr': 'it is Err', 'IsOk': 'it is Ok', 'Float': 'floating point number',}
TOLD = set('true false && || == [] ∷ Some None Ok Err - * / % ^'.split())
HEAD = re.compile(r"^(?:(?:abbrev|unfoldable|opaque)\s+(?:pub\s+)?|pub\s+(?!use\b|mod\b)|(?=record\s|data\s))(?:(?:abbrev|unfoldable|record|data)\s+)?([^\s:({]+)")
TOKEN = re.compile(r"[A-Za-z_][\w'\-]*(?:\.[A-Za-z_0-9][\w'\-]*)*|◌\S*◌|[≡≢⊎×→↔⊥⊤ℕℤλ∷≤]|\[\]|\+\+|&&|\|\||==|>>=|[+*/%^<]|(?<= )-(?= )")
WORDS = {'record', 'let', 'in', 'where', 'then', 'else', 'pub', 'data', 'abbrev', 'unfoldable', 'match', 'with'}


# In front of words that are not from the source.
MARK = '‡'


def said(comment):
    """The lines of a comment that say something."""
    return [line for line in comment if not line.startswith('-- ----')]


class Def:
    """A definition of a specs module, or a Rust type of a `declared` one."""

    def __init__(self, module, name, kind):
        self.module, self.name, self.kind = module, name, kind
        self.key, self.comment, self.lines, self.imports, self.note = (module, name), [], [], {}, ''


class Project:
    """All specs modules, their imports, and the Rust types that `declared` modules name."""

    def __init__(self, root):
        self.root, self.defs, self.imports, self.reexports, self.rust = root, {}, {}, {}, {}
        self.theorems, self.read_names, self.sizes = {}, {}, {}  # the theorems of the files, by name; what was read once
        self.owner = {}  # (module, constructor) -> name of its data type
        for path in sorted(glob.glob(os.path.join(root, 'crates/*/specs/**/*.antt'), recursive=True)):
            crate, inner = re.search(r'crates/([^/]+)/specs/(.+)\.antt$', path).groups()
            self.read(f"{crate}.{inner.replace('/', '.')}", open(path, encoding='utf-8').read())
        self.sources = {p: open(p, encoding='utf-8').read() for p in sorted(glob.glob(os.path.join(root, 'crates/*/src/**/*.rt'), recursive=True))}
        self.faults = []  # what makes the files wrong although they can be written
        self.add_comments(os.path.join(root, 'scripts/theorem_comments.txt'))

    def add_comments(self, path):
        """Puts the words of a list in front of definitions whose source has none, with a mark."""
        for row in open(path, encoding='utf-8'):
            if row.startswith('#'):
                continue
            where, words = row.rstrip('\n').split('  ', 1)
            d = self.defs.get(tuple(where.rsplit('.', 1)))
            if d is None:
                self.faults.append(f'{path}: there is no {where}')
            elif said(d.comment):
                self.faults.append(f'{path}: {where} has a comment in the source, so its line here goes')
            else:
                d.comment = textwrap.wrap(f'{MARK} {words}', 132, initial_indent='-- ', subsequent_indent='-- ', break_on_hyphens=False)

    def doubtful_import(self, name, module, inner):
        """What is wrong about a name of the standard library that a file imports as another name of it, or None."""
        if inner not in ('*', name) and name.strip('◌') in STANDARD:
            return f'{module.removeprefix("std.")}.{inner} is imported as {name}, which is another name of the standard library'
        return None

    def import_line(self, line, imports):
        """Reads a `use` line: names to (module, name), and aliases of modules to (module, '*')."""
        m = re.match(r'(?:ghost )?(?:pub )?use ([\w.]+?)(?:\.\{(.*)\}| as (\w+))?;?$', line.strip())
        if not m:
            return None
        module, names, alias = m.groups()
        m2 = re.match(r'Rattle\.(\w+)\.specs\.(.+)$', module)
        module = f'{m2.group(1)}.{m2.group(2)}' if m2 else 'std.' + module
        if alias:
            imports[alias] = (module, '*')
        for n in re.split(r',\s*', names or ''):
            a, _, b = n.strip().partition(' as ')
            if a:
                imports[b or a] = (module, a)
        return module

    def read(self, module, text):
        """Splits a module in definitions, each with the comment lines directly before it."""
        imports, comment, now, fixity = {}, [], None, []
        self.imports[module] = imports
        for line in text.split('\n'):
            if re.match(r'(pub )?use ', line):
                got = self.import_line(line, imports)
                if got and line.startswith('pub use'):
                    self.reexports.setdefault(module.split('.')[0], []).append(got)
                now = None
            elif line.startswith('--'):
                comment.append(line)
            elif line.startswith('infix'):
                fixity = [line]
            elif HEAD.match(line):
                now = Def(module, HEAD.match(line).group(1), 'data' if re.search(r'\bdata\b', line.split(':')[0]) else 'record' if re.search(r'\brecord\b', line.split(':')[0]) else 'def')
                now.comment, now.lines, now.imports = comment, fixity + [line], imports
                self.defs[now.key], comment, fixity = now, [], []
            elif not line.strip():
                comment = []
            elif now is not None and not line.startswith('pub mod'):
                now.lines += comment + [line]
                comment = []
                if now.kind == 'data' and re.match(r"\s+[\w'\-]+ :", line):
                    self.owner[(module, line.split()[0])] = now.name

    def find(self, module, name):
        """The definition or Rust type that a name of a module stands for, or None for the standard library."""
        if '.declared.' in module:
            return self.rust_type(module.removesuffix('.TheVariants'))
        seen = set()
        while (module, name) not in seen:
            seen.add((module, name))
            name_of = self.owner.get((module, name), name)
            if (module, name_of) in self.defs:
                return self.defs[(module, name_of)]
            if module in self.imports and name in self.imports[module]:
                module, name = self.imports[module][name]
            else:
                crate, _, inner = module.partition('.')
                for target in self.reexports.get(crate, []):
                    if target.partition('.')[2] == inner:
                        module = target
        return None

    def rust_type(self, module):
        """The struct or enum of a `declared` module crate.declared.path.Type, with the value that stands for it and its invariant."""
        if module in self.rust:
            return self.rust[module]
        crate, path, name = re.match(r'(\w+)\.declared\.(.+)\.(\w+)$', module).groups()
        text = self.sources.get(os.path.join(self.root, 'crates', crate, 'src', path.replace('.', '/') + '.rt'))
        self.rust[module] = None
        m = text and re.search(r'^(?:pub(?:\([a-z]+\))? )?(?:struct|enum) %s\b.*?(?:^\}|;$|\}$)' % name, text, re.M | re.S)
        if not m:
            return None
        d = self.rust[module] = Def(module, name, 'rust')
        before = text[:m.start()].rstrip('\n').split('\n')
        while before and before[-1].startswith(('///', '#[')):
            if before[-1].startswith('///'):
                d.comment.insert(0, '-- ' + before[-1][3:].strip())
            before.pop()
        d.comment = d.comment[:d.comment.index('-- ')] if '-- ' in d.comment else d.comment
        d.lines = [l.split('///')[0] + '-- ' + l.split('///')[1].strip() if '///' in l else l for l in m.group(0).split('\n') if not re.match(r'\s*(#\[|/// \[.*\]: |///$)', l)]
        model = re.search(r'^impl(?:<[^{]*>)? Model for %s\b.*?^\}' % name, text, re.M | re.S)
        for what, says in (('Value', 'in statements it stands for a'), ('invariant', 'invariant:')) if model else ():
            got = re.search(r'ghost %s = \{ (.*?) \};' % what, model.group(0), re.S)
            if got and got.group(1) != name:
                d.lines.append(f'-- {says} {" ".join(got.group(1).split())}')
        return d

    def names(self, d, lines):
        """The tokens of lines of a definition, each with what it stands for, or with None for the standard library."""
        read = (d.key, tuple(lines))
        if read not in self.read_names:
            self.read_names[read] = self.names_anew(d, lines)
        return self.read_names[read]

    def names_anew(self, d, lines):
        """The same, without what was kept."""
        out = []
        for line in lines:
            code = re.split(r'(?:^|\s)--(?:\s|$)', line)[0]
            bound = set()
            for m in re.finditer(r"[({]([\w' \-]+?) : |λ ([\w' \-]+)\.", code):
                bound |= set((m.group(1) or m.group(2)).split())
            clause = re.match(r"(\S.*?) =(?: |$)", code)
            if clause and not HEAD.match(code):
                bound |= {t for t in re.findall(r"(?<![.\w])[a-z][\w'\-]*(?![\w.])", clause.group(1)) if d.imports.get(t, (d.module, t)) not in self.owner}
            bound |= set(re.findall(r"(?:^|[{;]) *([a-z][\w']*) = ", code[clause.start(1) + 1:] if clause else code))
            bound |= set(re.findall(r"^\s+(?:pub )?([\w'\-]+) :", code))
            out += [(t, self.resolve(d, t)) for t in TOKEN.findall(code) if t.split('.')[0] not in bound | WORDS]
        return out

    def resolve(self, d, token):
        """The definition of a token in a definition."""
        first, _, rest = token.partition('.')
        for name in (first, f'◌{first}◌'):
            if name in d.imports:
                module, inner = d.imports[name]
                return None if module.startswith('std') and '.declared.' not in module else self.find(module, rest.split('.')[0] if inner == '*' else inner)
            if d.kind != 'rust' and ((d.module, name) in self.defs or (d.module, name) in self.owner):
                return self.find(d.module, name)
        return None

    def clauses(self, crate):
        """The `ensures` clauses of the public functions of a crate, each as a Def with the text of signature and clause."""
        for path, text in self.sources.items():
            if f'crates/{crate}/src/' not in path:
                continue
            imports = {}
            for line in re.findall(r'^\s*(ghost use .*;)$', text, re.M):
                self.import_line(line, imports)
            for fn in re.finditer(r'^ *pub fn (\w+).*?^ *\{\}?$', text, re.M | re.S):
                signature = re.split(r'^\s*(?://|ensures|requires)', fn.group(0), flags=re.M)[0].rstrip()
                requires = re.findall(r'^ *requires.*?\}$', fn.group(0), re.M | re.S)
                for m in re.finditer(r'ensures (?:(\w+) )?\{ (.*?) \}$', fn.group(0), re.M | re.S):
                    d = Def(f'{crate}.{os.path.relpath(path, os.path.join(self.root, "crates", crate))}', f'{fn.group(1)}.{m.group(1) or "ensures"}', 'clause')
                    d.lines, d.imports, d.note = signature.split('\n') + requires + ['    ' + l for l in m.group(0).split('\n')], imports, m.group(2)
                    yield d

"""Reads Rattle sources: the items of .rt files with their clauses, and the definitions of .antt files."""
import re
from collections import namedtuple

HEAD = re.compile(r'(?P<vis>pub(?:\([^)]*\))?\s+)?(?:(?:unsafe|const(?=\s+(?:fn|unsafe))|extern(?:\s*"[^"]*")?(?=\s+fn))\s+)*'
                  r'(?P<kw>fn|struct|enum|union|impl|trait|const|static|type|mod|use|ghost)\b')
CLAUSE = re.compile(r'\s*(requires|ensures)\b\s*([^\s{]*)\s*(?=\{)')
LITERAL = re.compile(r'//[^\n]*|/\*.*?\*/|"(?:\\.|[^"\\])*"|\'(?:\\[^\']*|[^\\\'\n])\'', re.S)
GHOST_USE = re.compile(r'Rattle\.([\w.]+?)(?:\.\{([^}]*)\}|\s+as\s+(\w+))?\s*$', re.S)
ANTT_USE = re.compile(r'^(?:pub )?use Rattle\.([\w.]+?)(?:\.\{([^}]*)\}|[ ]+as[ ]+(\S+))?[ ]*$', re.M)
ANTT_HEAD = re.compile(r'^(?:(?:abbrev|unfoldable|opaque|pub|record|data)\s+)+(\S+)')

# A parsed item of a .rt file. `parts` are the fields of a type, the clauses of a function, or the items of an impl or trait.
Item = namedtuple('Item', 'kind vis name text attrs parts scope')


def squeeze(text):
    """The text on one line, without a comma before a closing bracket."""
    return re.sub(r',\s*([)>\]])', r'\1', re.sub(r'([(\[])\s+', r'\1', re.sub(r'\s+', ' ', text))).strip()


def without_comments(text):
    """The text without comments, and a shadow of the same length whose literals are blank."""
    text = LITERAL.sub(lambda m: '' if m[0].startswith('/') else m[0], text)
    return text, LITERAL.sub(lambda m: ' ' * len(m[0]), text)


class Source:
    """The text of a .rt file and its items."""

    def __init__(self, text):
        self.text, self.shadow = without_comments(text)

    def stop(self, i, end, stops):
        """The first place from i at depth 0 where the pattern `stops` matches."""
        depth = 0
        while i < end:
            c = self.shadow[i]
            if depth == 0 and stops.match(self.shadow, i):
                return i
            depth += (c in '([{') - (c in ')]}')
            i += 1
        return end

    def close(self, i):
        """The place after the bracket that closes the one at i."""
        return self.stop(i + 1, len(self.shadow), re.compile(r'[)\]}]')) + 1

    def items(self, i=0, end=None, ghosts=()):
        """The items between two places. Ghost names of an inner scope come after those of the outer ones."""
        end = len(self.shadow) if end is None else end
        found, attrs, scope = [], [], dict(ghosts)
        while i < end:
            if self.shadow[i] == '#':
                j = self.close(self.shadow.index('[', i))
                attrs.append(squeeze(self.text[i:j]))
                i = j
                continue
            m = HEAD.match(self.shadow, i)
            if not m:
                i += 1
                continue
            item, i = self.item(m, end, attrs, scope)
            attrs = []
            if item:
                found.append(item)
        return found

    def item(self, m, end, attrs, scope):
        """The item whose head matched, and the place after it."""
        kw, vis = m['kw'], (m['vis'] or '').strip()
        i, j = m.start(), m.end()
        if kw == 'fn':
            return self.function(i, j, end, vis, attrs, scope)
        if kw == 'ghost' and not re.match(r'\s+use\b', self.shadow[j:]):
            brace = self.shadow.index('{', j)
            close = self.close(brace)
            name = re.match(r'\s*(\w+)', self.shadow[j:])[1]
            text = squeeze(self.text[i:brace]) + ' ' + squeeze(self.text[brace:close])
            return Item('ghost', vis, name, text, attrs, [], scope), close + 1
        if kw in ('const', 'static', 'type', 'use', 'ghost'):
            close = self.stop(j, end, re.compile(';'))
            text = squeeze(self.text[i:close])
            if kw == 'ghost':
                scope.update(ghost_names(self.text[j:close].strip()[3:].strip()))
                return None, close + 1
            name = re.match(r'\s*(\w+)', self.shadow[j:])
            return Item(kw, vis, name[1] if name else '', text, attrs, [], scope), close + 1
        return self.group(kw, i, j, end, vis, attrs, scope)

    def group(self, kw, i, j, end, vis, attrs, scope):
        """A struct, enum, trait, impl or module with its parts."""
        brace = self.stop(j, end, re.compile('[{;]'))
        name = re.match(r'\s*(\w*)', self.shadow[j:])[1]
        text = squeeze(self.text[i:brace])
        if brace >= end or self.shadow[brace] == ';':
            return Item(kw, vis, name, text, attrs, [], scope), brace + 1
        close = self.close(brace)
        if kw in ('impl', 'trait', 'mod'):
            parts = self.items(brace + 1, close - 1, scope)
        else:
            parts = self.fields(brace + 1, close - 1)
        return Item(kw, vis, name, text, attrs, parts, scope), close

    def fields(self, i, end):
        """The fields or variants, each as its text."""
        found = []
        while i < end:
            j = self.stop(i, end, re.compile(','))
            field = squeeze(re.sub(r'#\[[^\]]*\]', '', self.text[i:j]))
            if field:
                found.append(field)
            i = j + 1
        return found

    def function(self, i, j, end, vis, attrs, scope):
        """A function with its clauses."""
        name = re.match(r'\s*(\w+)', self.shadow[j:])[1]
        k = self.stop(j, end, re.compile(r'[{;]|\b(?:requires|ensures)\b(?=\s*[^\s{]*\s*\{)'))
        head, clauses = squeeze(self.text[i:k]), []
        m = CLAUSE.match(self.shadow, k)
        while m:
            close = self.close(m.end())
            body = squeeze(self.text[m.end() + 1:close - 1])
            clauses.append(' '.join(filter(None, [m[1], m[2], '{ ' + body + ' }'])))
            k = close
            m = CLAUSE.match(self.shadow, k)
        k = self.stop(k, end, re.compile('[{;]'))
        after = self.close(k) if k < end and self.shadow[k] == '{' else k + 1
        return Item('fn', vis, name, head, attrs, clauses, scope), after


def ghost_names(text):
    """The names that a `ghost use` or `use` brings: alias -> (path, name); the name is None for a whole module."""
    m = GHOST_USE.match(text)
    if not m:
        return {}
    path, names, alias = m[1], m[2], m[3]
    if names is None:
        return {alias or path.split('.')[-1]: (path, None)}
    pairs = [n.split(' as ') for n in re.split(r'\s*,\s*', names.strip()) if n]
    return {p[-1].strip(): (path, p[0].strip()) for p in pairs}


def source_imports(text):
    """The names that all `ghost use` of a .rt file bring: pairs of an alias and (path, name)."""
    uses = re.findall(r'\bghost\s+use\s+([^;]*)', without_comments(text)[0])
    return sorted({pair for use in uses for pair in ghost_names(use).items()}, key=str)


def use_paths(text):
    """The paths of a `use`: pairs of an alias and a list of names."""
    text = text.strip()
    m = re.match(r'(.*?)\{(.*)\}$', text, re.S)
    if m:
        parts, depth, start = [], 0, 0
        for i, c in enumerate(m[2] + ','):
            depth += (c == '{') - (c == '}')
            if c == ',' and depth == 0:
                parts.append(m[2][start:i])
                start = i + 1
        return [x for p in parts if p.strip() for x in use_paths(m[1] + p.strip())]
    path, _, alias = text.partition(' as ')
    names = [n.strip() for n in path.split('::')]
    names = names[:-1] if names[-1] == 'self' else names
    return [(alias.strip() or names[-1], names)]


class Crate:
    """A crate: its modules (a tuple of names -> items) and the public paths of its items."""

    def __init__(self, name, files):
        self.name, self.modules, self.uses, self.public, self.reexports = name, {}, {}, {}, set()
        for path, text in files.items():
            names = tuple(path[:-3].split('/'))
            self.add(() if names in (('lib',), ('main',)) else names, Source(text).items())
        seen = set()
        self.walk((), (name,), seen)
        if 'main.rt' in files:  # no other crate uses a program: its statements are those of its modules
            for module in sorted(self.modules):
                self.walk(module, (name, *module), seen)

    def add(self, module, items):
        """Notes the items of a module, and of the modules in it."""
        self.modules[module] = items
        self.uses[module] = [(i.vis, a, p) for i in items if i.kind == 'use'
                             for a, p in use_paths(i.text.split('use ', 1)[1])]
        for item in items:
            if item.kind == 'mod' and item.parts:
                self.add(module + (item.name,), item.parts)

    def named(self, module, name):
        """The item of that name which a module itself has."""
        kinds = ('fn', 'struct', 'enum', 'union', 'trait', 'const', 'static', 'type')
        return next((i for i in self.modules.get(module, []) if i.name == name and i.kind in kinds), None)

    def find(self, module, path, depth=0):
        """Where a path leads that is used in a module: (module, name), or None outside of the crate."""
        base, path = (module, path) if path[0] not in ('crate', self.name) else ((), path[1:])
        while path and path[0] in ('self', 'super'):
            base, path = (base if path[0] == 'self' else base[:-1]), path[1:]
        if not path or depth > 9:
            return None
        target, name = base + tuple(path[:-1]), path[-1]
        if self.named(target, name) or target + (name,) in self.modules:
            return target, name
        for _, alias, other in self.uses.get(target, []):
            if alias == name and other != path:
                return self.find(target, other, depth + 1)
        return None

    def walk(self, module, prefix, seen):
        """Notes the public path of all public items of a module; of several paths, the shortest."""
        if (module, prefix) in seen:
            return
        seen.add((module, prefix))
        for item in self.modules.get(module, []):
            if item.vis == 'pub' and item.kind == 'mod':
                self.walk(module + (item.name,), prefix + (item.name,), seen)
            elif item.vis == 'pub' and item.kind not in ('use', 'impl', 'ghost'):
                self.publish(module, item.name, prefix + (item.name,))
        for vis, alias, path in self.uses.get(module, []):
            if vis != 'pub':
                continue
            found = self.find(module, path)
            if not found:
                self.reexports.add(('::'.join(prefix + (alias,)), '::'.join(path)))
            elif found[0] + (found[1],) in self.modules:
                self.walk(found[0] + (found[1],), prefix + (alias,), seen)
            else:
                self.publish(found[0], found[1], prefix + (alias,))

    def publish(self, module, name, path):
        """Notes a public path."""
        old = self.public.get((module, name))
        if old is None or (len(path), path) < (len(old), old):
            self.public[module, name] = path


class Definition:
    """A definition of a .antt file."""

    def __init__(self, name):
        self.name, self.lines, self.members = name, [], None

    def add(self, line):
        """Adds a line of the file, joined to the line that it continues."""
        indent = len(line) - len(line.lstrip())
        if self.lines and self.lines[-1].endswith('where') and self.members is None and indent:
            self.members = indent
        if (indent == 0 or indent == self.members) and line.lstrip()[0] not in '})]×→⊎':
            self.lines.append(('  ' if indent else '') + squeeze(line))
        else:
            self.lines[-1] += ' ' + squeeze(line)

    def constructors(self):
        """The constructors of a data type."""
        if not re.match(r'(?:pub )?data ', self.lines[0]):
            return []
        return [line.split()[0] for line in self.lines[1:] if line.startswith('  ')]


class Spec:
    """A .antt file: its definitions, its constructors, and the names that it uses."""

    def __init__(self, text):
        text = re.sub(r'(?m)(^|[ \t])--(?:[ \t].*)?$', '', text)
        self.definitions, self.owner, self.names, self.reexported = {}, {}, {}, []
        for m in ANTT_USE.finditer(text):
            self.names.update(ghost_names(re.sub(r'^(?:pub )?use ', '', m[0])))
            if m[0].startswith('pub use') and not m[2]:
                self.reexported.append(m[1])
        current = None
        for line in ANTT_USE.sub('', text).split('\n'):
            head = ANTT_HEAD.match(line)
            if line.startswith(('use ', 'pub use ', 'pub mod ')) or not line.strip():
                continue
            if head:
                current = self.definitions.setdefault(head[1], Definition(head[1]))
            if current:
                current.add(line)
        for d in self.definitions.values():
            self.owner.update({n: d.name for n in [*d.constructors(), d.name]})


def tokens(text):
    """The names that a text uses, each with the name after its dot, if there is one."""
    for word in re.split(r'[\s(){}\[\];,«»λ]+', text):
        first, _, rest = word.partition('.')
        if first:
            yield first, rest.split('.')[0]


def impl_parts(head):
    """The trait of an impl, or '', and the bare name of its type."""
    rest, depth = re.sub(r'^(?:unsafe )?impl\s*', '', head), 0
    if rest.startswith('<'):
        for i, c in enumerate(rest):
            depth += (c == '<') - (c == '>' and rest[i - 1] != '-')
            if depth == 0:
                rest = rest[i + 1:].strip()
                break
    rest = rest.split(' where ')[0]
    trait, _, target = rest.rpartition(' for ')
    name = re.match(r"(?:&\s*)?(?:'\w+\s+)?(?:mut\s+)?([\w:]+)", target)
    return trait, name[1].split('::')[-1] if name else target

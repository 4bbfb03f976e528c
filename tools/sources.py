"""What stands in the sources of a tree: definitions and theorems of .antt files, functions with their contracts of .rt files.

Read by layout alone, which `rt fmt` keeps: a declaration starts a line with its name and ':', and goes on until the next one.
Used by tools/check_docs.py and tools/landing.
"""
import os
import re
from dataclasses import dataclass, field

HEAD = re.compile(r'^(?P<indent> *)(?:(?:abbrev|unfoldable) )?(?P<pub>pub )?(?:(?P<kind>data|record) )?(?P<name>[^\s:(){}]+)(?= |$)')
# crates/NAME/proofs/FILE.antt has lemmas; what lies deeper is a function's proof
LEMMAS = 3
NOT_NAMES = {'use', 'pub', 'mod', 'module', 'unfolding', 'where', 'constructor'}


@dataclass
class Declaration:
    """A definition or a theorem: `statement` is its type (with the parameters of the sections that it stands in), `text` all of it, `cited` all of it but
    what its clauses bind."""
    crate: str
    path: str
    name: str
    public: bool
    statement: str
    text: str
    lines: int
    cited: str


@dataclass
class Function:
    """A function of a .rt file, by the path under which the generated modules have it: crate.module.Type.name, and crate.module.TypeTrait.name for a
    type's method of a trait. `declares`: it stands in the trait itself; `ghosts`: what the type's `impl` says for the ghosts of the trait's clauses."""
    crate: str
    path: str
    key: str
    public: bool
    contract: str
    program: bool = field(default=False)
    trait: str = field(default='')
    declares: bool = field(default=False)
    ghosts: str = field(default='')

    @property
    def law(self):
        return (self.trait, self.key.rsplit('.', 1)[1])


def squeeze(text):
    return ' '.join(text.split())


def without_comments(text):
    return '\n'.join(line for line in text.split('\n') if not line.lstrip().startswith('--'))


def starts(line):
    """The head of a declaration at this line: its indent, name and kind; nothing for a clause, a field or an import."""
    m = HEAD.match(line)
    if not m or m['name'] in NOT_NAMES or m['name'].startswith('--'):
        return None
    rest = line[m.end():]
    if m['kind'] or re.match(r'^ *:(?: |$)', rest):
        return m
    return None


def declarations(crate, path, text):
    lines = without_comments(text).split('\n')
    found, sections, at = [], [], 0
    while at < len(lines):
        line = lines[at]
        indent = len(line) - len(line.lstrip())
        if line.strip():
            sections = [(i, s) for i, s in sections if i < indent]
        if line.lstrip().startswith('module '):
            end = next((k for k in range(at, len(lines)) if lines[k].rstrip().endswith('where')), at)
            sections.append((indent, squeeze(' '.join(lines[at:end + 1]))))
            at = end + 1
            continue
        head = starts(line)
        if not head:
            at += 1
            continue
        end = body_end(lines, at, indent, head)
        found.append(declared(crate, path, head, lines[at:end], [s for _, s in sections]))
        at = end
    return found


def body_end(lines, at, indent, head):
    """The first line after the declaration: the next head, section or import at its indent or further left."""
    k = at + 1
    while k < len(lines):
        line = lines[k]
        depth = len(line) - len(line.lstrip())
        if line.strip() and depth <= indent:
            own = re.match(r'^\s*' + re.escape(head['name']) + r'(?= |$)', line) or line.lstrip().startswith('unfolding ')
            continued = re.match(r'^\s*[})\]]', line)
            if not own and not continued and (starts(line) or re.match(r'^\s*(module|use|pub mod|abbrev|unfoldable|pub|data|record)\b', line)):
                break
        k += 1
    return k


def declared(crate, path, head, lines, sections):
    body = [line for line in lines if line.strip()]
    statement, clauses = [], []
    for line in body:
        clause = re.match(r'^\s*' + re.escape(head['name']) + r'( |$)', line) and statement and not head['kind']
        if clause or (line.lstrip().startswith('unfolding ') and not head['kind']):
            clauses.append(line)
        elif clauses:
            clauses[-1] += ' ' + line
        else:
            statement.append(line)
    said = squeeze(' '.join(sections + statement))
    cited = squeeze(' '.join([said] + [unbound(clause) for clause in clauses]))
    return Declaration(crate, path, head['name'], bool(head['pub']), said, squeeze(' '.join(sections + body)), len(body), cited)


def unbound(clause):
    """What a clause says, without its left side and the names that this binds: of `says (Ok plan) = plan ∷ []` only `∷ []`."""
    left, equals, right = clause.partition(' = ')
    if not equals:
        return clause
    bound = set(re.findall(r'[^\s(){}\[\],;]+', left))
    return re.sub(r'[^\s(){}\[\],;]+', lambda m: '' if m[0].partition('.')[0] in bound else m[0], right)


FUNCTION = re.compile(r'^(?P<indent> *)(?P<pub>pub )?(?:extern "C" )?fn (?P<name>\w+)')
BLOCK = re.compile(r'^(?:(?:pub )?trait (?P<declared>\w+)|impl (?:(?:\w+::)*(?P<trait>\w+) for )?(?P<type>\w+))')


def without_generics(line):
    """`impl Clone for Row {` of `impl<T: Copy, const N: usize> Clone for Row<T, N> {`."""
    depth, kept = 0, ''
    for at, letter in enumerate(line):
        if letter == '<':
            depth += 1
        elif letter == '>' and line[at - 1] != '-':
            depth -= 1
        elif not depth:
            kept += letter
    return kept


def contract_at(lines, at):
    """Head and clauses of the function at a line: up to its body, or in a trait to the semicolon."""
    end = at
    while not lines[end].endswith(';') and (not lines[end].endswith(('{', '{}')) or lines[end].lstrip().startswith(('requires', 'ensures'))):
        end += 1
    return squeeze(re.sub(r'(?:\{\}?|;)$', '', ' '.join(lines[at:end + 1])))


def ghosts_at(lines, at):
    """The ghosts of the block that starts at a line."""
    end = next(k for k in range(at, len(lines)) if lines[k].startswith('}'))
    return ' '.join(squeeze(ghost) for ghost in re.findall(r'^    ghost (.*?);$', '\n'.join(lines[at:end]), re.M | re.S))


def functions(crate, path, text, program):
    module = os.path.basename(path)[:-3]
    prefix = [crate] + ([] if module in ('lib', 'main') else [module])
    block, found, lines = None, [], text.split('\n')
    for at, line in enumerate(lines):
        head = BLOCK.match(without_generics(line))
        if head or line.startswith('}'):
            block, ghosts = head, ghosts_at(lines, at) if head and head['trait'] else ''
        m = FUNCTION.match(line)
        if not m:
            continue
        owner = [(block['declared'] or block['type']) + (block['trait'] or '')] if block else []
        f = Function(crate, path, '.'.join(prefix + owner + [m['name']]), bool(m['pub']), contract_at(lines, at), program)
        if block and not block['type']:
            f.trait, f.declares = block['declared'], True
        elif block and block['trait']:
            f.trait, f.ghosts = block['trait'], ghosts
        found.append(f)
    return found


class Tree:
    """The sources below a folder: all .antt and .rt files of crates/."""

    def __init__(self, top):
        self.top = top
        self.specs, self.theorems, self.functions, self.proof_files = [], [], [], {}
        self.texts = {}
        for path in sorted(self.files()):
            self.read(path)
        self.fill_clauses()

    def fill_clauses(self):
        """A type's method of a trait has the trait's clauses. Those of a library's trait are not in the tree: there the ghosts stand for them."""
        laws = {f.law: re.sub(r'^.*?(?= requires | ensures |$)', '', f.contract) for f in self.functions if f.declares}
        for f in self.functions:
            if f.trait and not f.declares:
                said = f'{laws[f.law]} {f.ghosts}' if f.law in laws else f' ensures {f.ghosts}' if f.ghosts else ''
                f.contract = squeeze(f.contract + said)

    def files(self):
        for folder, inner, names in os.walk(os.path.join(self.top, 'crates')):
            inner[:] = [name for name in inner if name != 'out']
            for name in names:
                if name.endswith(('.antt', '.rt')):
                    yield os.path.relpath(os.path.join(folder, name), self.top)

    def read(self, path):
        crate, part = path.split(os.sep)[1:3]
        with open(os.path.join(self.top, path), encoding='utf-8') as f:
            text = f.read()
        self.texts[path] = text
        if path.endswith('.rt'):
            program = os.path.exists(os.path.join(self.top, 'crates', crate, 'src', 'main.rt'))
            self.functions += functions(crate, path, text, program)
        elif part == 'specs':
            self.specs += declarations(crate, path, text)
        else:
            self.proof_files[path] = squeeze(without_comments(text))
            self.theorems += [d for d in declarations(crate, path, text) if d.public and path.count(os.sep) == LEMMAS]


USE = re.compile(r'^use (?P<module>\S+?)(?:\.\{(?P<names>.*)\})?(?: as (?P<alias>\S+))?$')


def imports(text):
    """For each local name the module and the name there; for each alias the module."""
    names, aliases = {}, {}
    for line in text.split('\n'):
        m = USE.match(line)
        if not m:
            continue
        if m['alias']:
            aliases[m['alias']] = m['module']
        for word in (m['names'] or '').split(', '):
            there, _, here = word.partition(' as ')
            names[here or there] = (m['module'], there)
    return names, aliases


def file_of(module):
    """The specs file that a module is, as Rattle.table.specs.Tables; nothing for the library's."""
    m = re.match(r'^Rattle\.(\w+)\.specs\.(?!declared|contracts)(\w+)$', module)
    return os.path.join('crates', m[1], 'specs', m[2] + '.antt') if m else None


class Words:
    """What a definition or a statement rests on: the definitions of specs/ that its words name, and those that they name."""

    def __init__(self, tree):
        self.tree = tree
        self.at = {(d.path, d.name): d for d in tree.specs + tree.theorems}
        self.order = {key: place for place, key in enumerate(self.at)}
        self.imported = {path: imports(text) for path, text in tree.texts.items() if path.endswith('.antt')}

    def named(self, path, text):
        """The definitions of specs/ named in a text that stands in a file."""
        names, aliases = self.imported[path]
        for word in re.findall(r'[^\s(){}\[\],;]+', text):
            word = word.rstrip('.')
            head, _, tail = word.partition('.')
            if (path, word) in self.at and os.sep + 'specs' + os.sep in path:
                yield (path, word)
            elif word in names:
                module, there = names[word]
                if file_of(module) and (file_of(module), there) in self.at:
                    yield (file_of(module), there)
            elif head in aliases and tail and file_of(aliases[head]) and (file_of(aliases[head]), tail) in self.at:
                yield (file_of(aliases[head]), tail)

    def rests_on(self, path, text, pinned=frozenset()):
        """All of them, from the text on. A contract that is cited (`Reads.Learnt`) is what the code has, and is not followed; nor is a definition
        that is pinned, as a theorem says what it is."""
        found, open_ends = set(), list(self.named(path, text))
        while open_ends:
            key = open_ends.pop()
            if key in found:
                continue
            found.add(key)
            body = self.at[key].cited
            if '.Reads.Learnt' not in body and key not in pinned:
                open_ends += self.named(key[0], body)
        return found

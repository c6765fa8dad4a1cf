"""What tools/tidy and tools/reading share: the files of the crates, what they import, and what they declare."""
import os
import re
from functools import lru_cache

ROOT = os.path.dirname(os.path.dirname(os.path.abspath(__file__)))
CRATES = os.path.join(ROOT, 'crates')


# ---- files

@lru_cache(None)
def dependencies():
    """crates.txt: crate to its dependencies, in the file's order."""
    found = {}
    with open(os.path.join(ROOT, 'crates.txt'), encoding='utf-8') as file:
        for line in file:
            name, colon, rest = line.split('#')[0].partition(':')
            if colon:
                found[name.split()[0]] = rest.split()
    return found


def crates():
    return list(dependencies())


@lru_cache(None)
def sources(crate):
    """The .rt and .antt files of a crate that are proved, as paths from the repository's root."""
    found = []
    for folder, folders, files in os.walk(os.path.join(CRATES, crate)):
        folders[:] = sorted(f for f in folders if f not in ('must-fail', 'out'))
        found += [os.path.relpath(os.path.join(folder, name), ROOT) for name in sorted(files) if name.endswith(('.rt', '.antt'))]
    return found


@lru_cache(None)
def text_of(path):
    """A file without its comments; every line stays on its number."""
    with open(os.path.join(ROOT, path), encoding='utf-8') as file:
        text = file.read()
    return re.sub(r'//[^\n]*' if path.endswith('.rt') else r'(?m)(^|(?<=\s))--[^\n]*', '', text)


def line_at(text, place):
    return text.count('\n', 0, place) + 1


@lru_cache(None)
def headlines():
    """The names that docs/READING.md has in backticks."""
    with open(os.path.join(ROOT, 'docs', 'READING.md'), encoding='utf-8') as file:
        return set(re.findall(r'`([^`\s]+)`', file.read()))


# ---- proof text: all of an .antt file, the contracts and ghost fields of an .rt file

USE = re.compile(r'^[ \t]*(?:ghost )?use ([^\s{;:]+?)(?:\.\{([^}]*)\}| as (\S+?));?[ \t]*$', re.M)
TOKEN = re.compile(r'[^\s(){};,.⌜⌝«»@]+')
CLAUSE = re.compile(r'\b(?:(?:requires|ensures)\*?(?: \w+)?|ghost \w+(?::| =)) \{')


def clauses(text):
    """Where the braces of each clause begin and end."""
    for clause in CLAUSE.finditer(text):
        depth, at = 1, clause.end()
        while depth:
            depth += {'{': 1, '}': -1}.get(text[at], 0)
            at += 1
        yield clause.end(), at - 1


def contracts(text):
    """What the braces of the clauses hold."""
    return '\n'.join(text[start:end] for start, end in clauses(text))


def contracts_out(text):
    """The text without that."""
    for start, end in reversed(list(clauses(text))):
        text = text[:start] + text[end:]
    return text


@lru_cache(None)
def proof_text(path):
    """A file's proof text without its imports."""
    text = USE.sub('', text_of(path))
    return contracts(text) if path.endswith('.rt') else text


def bare_tokens(text):
    """The names that stand by themselves: not as a field, not behind a module's name."""
    return {m[0] for m in TOKEN.finditer(text) if m.start() == 0 or text[m.start() - 1] != '.'}


def tokens_behind(alias, text):
    """The names that a text reaches through a module's alias."""
    return set(re.findall(rf"(?<![\w.·'-]){re.escape(alias)}\.([^\s(){{}};,.⌜⌝]+)", text))


def stands_in(name, found):
    """Whether a name, or every part of an operator such as ◌+◌, is among the tokens."""
    return all(p in found for p in name.split('◌') if p)


# `use a::b::Name;` or `use a::b::{Name, other};` of an .rt file.
CODE_USE = re.compile(r'^use ([\w:]+)::(\w+|\{[^}]*\});', re.M)


def names_in(items):
    return [item.strip() for item in items.strip('{}').split(',') if item.strip()]


def imported_code(text):
    """What an .rt file imports for its code: pairs of a crate and a name."""
    return [(use[1].split('::')[0], name) for use in CODE_USE.finditer(text) for name in names_in(use[2])]


@lru_cache(None)
def imports(path):
    """What a file imports for its proof text: (line, module, name, name here); the third is None for a module under an alias."""
    text, found = text_of(path), []
    for use in USE.finditer(text):
        if use[3]:
            found.append((line_at(text, use.start()), use[1], None, use[3]))
        else:
            for item in (use[2] or '').split(','):
                name, _, here = item.strip().partition(' as ')
                if name:
                    found.append((line_at(text, use.start()), use[1], name, here.strip() or name))
    return found


# `using(crate::proofs::M::lemma, ..)` and `unfolding(..)` of a function's attribute.
HINTS = re.compile(r'\b(?:using|unfolding)\(([^)]*)\)')


def hinted(path):
    """What the attributes of an .rt file name: pairs of a module and a name."""
    own = path.split('/')[1]
    for hints in HINTS.finditer(text_of(path)):
        for item in hints[1].split(','):
            crate, part, *rest = item.strip().split('::')
            yield (own if crate == 'crate' else crate, part, '.'.join(rest[:-1])), rest[-1]


def module_of(path):
    """How imports name an .antt file: (crate, specs or proofs, path)."""
    _, crate, part, *rest = path[:-len('.antt')].split('/')
    return crate, part, '.'.join(rest)


def imported_module(text):
    """The same of a module's path, `Rattle.CRATE.specs.X`; None for a library's."""
    found = re.match(r'Rattle\.(\w+)\.(specs|proofs)\.(.+)$', text)
    return found.groups() if found and found[1] in dependencies() else None


# ---- declarations of an .antt file

HEAD = re.compile(r'\s*(abbrev |unfoldable )?(pub )?(?:(record|data) )?([^\s(){};,.:]+) (?=.*(?::| where))')
RESERVED = {'use', 'mod', 'module', 'unfolding', 'where', 'let', 'in', 'record', 'data', 'pub', 'abbrev', 'unfoldable', 'λ', '|'}


class Declared:
    """A declaration: its name, a datatype's constructors with it; whether it is public; its lines, and those of its signature."""

    def __init__(self, path, lines, at, head):
        self.path, self.at, self.name = path, at, head[4]
        self.is_public, self.sort = bool(head[2]), head[3]
        self.is_transparent = bool(head[1] or head[3])
        self.indent = indent_of(lines[at])
        self.end = block_end(lines, at, self.indent, self.name)
        self.names = [self.name] + (constructors(lines[at + 1:self.end]) if self.sort == 'data' else [])

    def own(self):
        return range(self.at, self.end)

    def signature(self, lines):
        """The lines up to the first clause."""
        for at in range(self.at + 1, self.end):
            if lines[at].strip() and indent_of(lines[at]) == self.indent:
                return range(self.at, at)
        return self.own()


def indent_of(line):
    return len(line) - len(line.lstrip())


def block_end(lines, at, indent, name):
    """The line past a declaration's signature, its clauses and all that is indented below them."""
    for end in range(at + 1, len(lines)):
        if not lines[end].strip() or indent_of(lines[end]) > indent:
            continue
        if indent_of(lines[end]) < indent or lines[end].split()[0] not in (name, 'unfolding'):
            return end
    return len(lines)


def constructors(lines):
    return [m[1] for m in (re.match(r'\s+([^\s:]+) :', line) for line in lines) if m]


@lru_cache(None)
def declared(path):
    """The declarations of an .antt file, not a record's fields nor constructors by themselves."""
    lines, found, inside = text_of(path).split('\n'), [], None
    for at, line in enumerate(lines):
        if not line.strip() or (found and at < found[-1].end) or (inside is not None and indent_of(line) > inside):
            continue
        inside, head = None, HEAD.match(line)
        if not head or head[4] in RESERVED:
            continue
        if head[3] or re.match(r'\s*(?:(?:abbrev|unfoldable) )?(?:pub )?\S+ :', line):
            found.append(Declared(path, lines, at, head))
            inside = found[-1].indent
    return found

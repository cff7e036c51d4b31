#!/usr/bin/env python3
"""Writes docs/STATEMENT.md: all definitions that the contracts of the C calls rest on, and no other.

docs/statement.py            writes the page
docs/statement.py --check    writes nothing; ends with 1 where the page is not current, and shows how it differs, and
                             where specs/ has a definition that no contract rests on
docs/statement.py --inner    lists the definitions that contracts inside the library rest on, but none of a C call
docs/statement.py --uncited  lists the definitions that no contract rests on

Headings and order come from docs/statement.txt, which says how it is written.
"""
import collections
import difflib
import itertools
import pathlib
import re
import sys

ROOT = pathlib.Path(__file__).resolve().parent.parent
TABLE = 'docs/statement.txt'
PAGE = 'docs/STATEMENT.md'
LIBRARY = 'lutniorad'  # the crate with the C calls
PROMISES = 'Promises.antt'  # how the name of a file ends that has the words in which promises are said
DIFF_SHOWN = 40  # lines

# Of antt and of contracts, what needs no `use` line: signs that name nothing, and names.
SIGNS = ('→', ':', '=', ',', ';', '_', '.', 'record', 'where')
OPENING = ('(', '{')
CLOSING = (')', '}')
HOLE = '◌'  # in the name of an operator, where an argument stands
OPEN_NAMES = ('Type', 'Unit', '×', '¬', '⊥', 'tt', 'Some', 'None', 'Ok', 'Err')
OF_CONTRACTS = ('self', 'result')  # what a clause may name beside the parameters


class Failure(Exception):
    """What the reader of the message has to mend."""


# ---- What the files hold

class File:
    """A file of definitions or of code: where it stands, what its `use` lines bring, and what it defines itself."""

    def __init__(self, path, text):
        self.path = path
        self.lines = text.split('\n')
        self.brought = {}  # name -> (path of a module, its name there)
        self.modules = {}  # name -> path of a module
        self.own = {}  # name -> Found
        self.definitions = []
        read_use_lines(self, text)


class Definition:
    """An item of a file of definitions. `lines` has its comment too, without the indentation of its block."""

    def __init__(self, file, name, kind, block, lines):
        self.file = file
        self.name = name
        self.kind = kind  # 'record', 'data' or ''
        self.block = block  # the line `module _ (..) where` that it stands below, or ''
        self.lines = lines
        self.rests_on = ()  # definitions, declared types and symbols


class DeclaredType:
    """An enum or a struct of the code. `lines` has its comment and its attributes too, and `clauses` what its ghost
    fields state of the others."""

    def __init__(self, file, name, lines, fields, clauses):
        self.file = file
        self.name = name
        self.lines = lines
        self.fields = fields
        self.clauses = clauses
        self.rests_on = ()


class Function:
    """A function of the code: its text up to the body, and what its contract rests on."""

    def __init__(self, file, name, lines, parameters, clauses):
        self.file = file
        self.name = name
        self.lines = lines
        self.parameters = parameters
        self.clauses = clauses
        is_of_c = any(line.startswith('pub extern "C" fn ') for line in lines)
        self.is_exported = is_of_c and '#[unsafe(no_mangle)]' in lines
        self.rests_on = ()


Symbol = collections.namedtuple('Symbol', 'module name')  # of the toolchain's library; with no module, of the language
Found = collections.namedtuple('Found', 'thing is_constructor')


# ---- Reading a file of definitions

USE = re.compile(r'^ *(?:ghost |unfoldable |pub )*use ([^\s{:]+?)(?:\.\{([^}]*)\}| as (\S+?))?;?$', re.MULTILINE)
ITEM = re.compile(r'(?=unfoldable |abbrev |pub |record |data )(?!.*pub (?:use|mod) )'
                  r'(?:unfoldable |abbrev )?(?:pub )?(record |data )?(\S+)')
HEADER = re.compile(r'(?:unfoldable )?(?:pub )?(?:use|mod) ')
BLOCK_DEPTH = 2  # spaces before what stands below `module _ (..) where`


def read_use_lines(file, text):
    for path, names, alias in USE.findall(text):
        if names:
            for entry in names.split(','):
                name, _, other = entry.strip().partition(' as ')
                file.brought[other or name] = (path, name)
        else:
            file.modules[alias or path.rsplit('.', 1)[-1]] = path


def indentation(line):
    return len(line) - len(line.lstrip())


def is_comment(line):
    return line.lstrip().startswith('--')


def without_comments(lines):
    return [re.sub(r' +--( .*)?$', '', line) for line in lines if not is_comment(line)]


def read_definitions(file):
    """Fills in what a file of definitions defines."""
    file.definitions = list(items(file))
    for item in file.definitions:
        while not item.lines[-1].strip():
            item.lines.pop()
        file.own[item.name] = Found(item, False)
    for item in file.definitions:
        for name in constructors(item):
            file.own.setdefault(name, Found(item, True))


def items(file):
    """The definitions of a file. Each has the comment directly above it, and reaches to the next line that is indented
    no more than it and is a comment or begins something else."""
    block, depth, comment, item = '', 0, [], None
    for line in file.lines:
        if line.strip() and indentation(line) < depth:
            block, depth, item = '', 0, None
        begins = ITEM.match(line[depth:]) if indentation(line) == depth else None
        if line.startswith('module '):
            if not line.endswith(' where'):
                raise Failure('%s: a block begins in more than one line: %s' % (file.path, line))
            block, depth, item = line, BLOCK_DEPTH, None
        elif is_comment(line) and indentation(line) == depth:
            item = None
            comment.append(line[depth:])
            continue
        elif begins:
            kind = begins.group(1) or ''
            item = Definition(file, begins.group(2), kind.strip(), block, comment)
            yield item
        elif HEADER.match(line[depth:]):
            item = None
        elif line.strip() and indentation(line) == depth and not item:
            raise Failure('%s: this line belongs to no definition: %s' % (file.path, line))
        if item:
            item.lines.append(line[depth:])
        comment = []


def statements(lines):
    """Joins each line with the more indented ones that follow it."""
    joined = []
    for line in without_comments(lines):
        if joined and indentation(line) > indentation(joined[0]):
            joined[-1] += '\n' + line
        elif line.strip():
            joined.append(line)
    return joined


def head_and_members(item):
    """Of a record or a data type: its head, and its fields or constructors, each a name and a type."""
    head, _, body = '\n'.join(without_comments(item.lines)).partition(' where')
    members = []
    for statement in statements(body.split('\n')[1:]):
        name, _, its_type = statement.partition(' : ')
        members.append((name.split()[-1], its_type))
    return head, members


def constructors(item):
    return [name for name, _ in head_and_members(item)[1]] if item.kind == 'data' else []


# ---- The names in an expression

def tokens_of(text):
    return re.findall(r'[(){},;]|[^\s(){},;]+', text)


def is_name(token):
    return not (token in SIGNS + OPENING + CLOSING or token.startswith('.') or token.isdigit())


def is_bound(token, names):
    """Is it one of these names, or a part of one, as `x.part`?"""
    return token in names or token.partition('.')[0] in names


def names_before(tokens, start, ends):
    """The names up to the first token outside brackets that is one of the ends, and the place of that one."""
    end, depth = start, 0
    while end < len(tokens) and (depth > 0 or tokens[end] not in ends):
        depth += (tokens[end] in OPENING) - (tokens[end] in CLOSING)
        end += 1
    return [token for token in tokens[start:end] if is_name(token)], end


def bound_by_bracket(tokens, start):
    """What a bracket binds that opens before the place start, and where to go on: `(x y : A)` binds x and y."""
    end = start
    while end < len(tokens) and is_name(tokens[end]):
        end += 1
    if start < end < len(tokens) and tokens[end] == ':':
        return tokens[start:end], end
    return [], start


def bound_by_lambda(tokens, start):
    """The same of `λ x y. ..`. The brackets of `λ (x : A). ..` bind by themselves."""
    end = start
    while end < len(tokens) and not tokens[end].endswith('.'):
        end += 1
    names = [token.rstrip('.') for token in tokens[start:end + 1]]
    if ':' in names:
        return [], start
    return [name for name in names if name and is_name(name)], end + 1


def free_names(text, bound):
    """The names in an expression that are not bound there, nor in `bound` before; and those bound where it ends.
    `(x : A)`, `λ x.` and `let x = e in` bind up to the end of the bracket in which they stand."""
    tokens, i = tokens_of(text), 0
    free, scopes = [], [set(bound)]
    opened = []  # brackets and lets that are open, each with what it binds when it closes
    while i < len(tokens):
        token = tokens[i]
        i += 1
        if token in OPENING:
            names, i = bound_by_bracket(tokens, i)
            opened.append((token, names))
            scopes.append(set())
        elif token == 'let':
            names, i = names_before(tokens, i, (':', '='))
            opened.append((token, names))
            scopes.append(set())
        elif token in CLOSING or token == 'in':
            if not opened:
                raise Failure('this closes more than it opens: ' + text)
            scopes.pop()
            scopes[-1].update(opened.pop()[1])
        elif token == 'λ':
            names, i = bound_by_lambda(tokens, i)
            scopes[-1].update(names)
        elif opened and opened[-1][0] == '{' and tokens[i:i + 1] == ['=']:
            pass  # a field of `record { field = e }`
        elif is_name(token) and not any(is_bound(token, scope) for scope in scopes):
            free.append(token)
    return free, set().union(*scopes)


def equation_names(text, bound, is_constructor):
    """The free names of an equation: those on its left are bound, its own too, unless they are constructors."""
    tokens = tokens_of(text)
    left, end = names_before(tokens, 0, ('=',))
    matched = [name for name in left if is_constructor(name)]
    free, _ = free_names(' '.join(tokens[end:]), bound | (set(left) - set(matched)))
    return matched + free


def definition_names(item, is_constructor):
    """The free names of a definition, and of the line of its block."""
    _, _, parameters = item.block.partition(' _ ')
    free, bound = free_names(parameters, set())
    if item.kind:
        head, members = head_and_members(item)
        found, bound = free_names(head.partition(item.kind + ' ' + item.name)[2], bound)
        free += found
        for name, its_type in members:
            free += free_names(its_type, bound)[0]
            if item.kind == 'record':
                bound = bound | {name}  # for the fields that follow
        return free
    signature, *equations = statements(item.lines)
    free += free_names(signature.partition(' : ')[2], bound)[0]
    for equation in equations:
        free += equation_names(equation, bound, is_constructor)
    return free


# ---- Reading a file of code

TYPE = re.compile(r'^(?:pub )?(?:enum|struct) (\w+)', re.MULTILINE)
FIELD = re.compile(r': *([^,\n]+)|\(([^)]*)\)')  # the type of a named field, or those of unnamed ones
FUNCTION = re.compile(r'\bfn (\w+)')
CLAUSE = re.compile(r'\b(?:(?:requires|ensures)\*?(?: \w+)?|ghost \w+:)\s*$')  # some have names
GHOST_FIELD = re.compile(r'\bghost \w+ *: *\{')
GHOST_MEMBER = re.compile(r'\bghost \w+ *= *\{')  # of an impl


def blank_comments(text):
    """Every place stays where it is."""
    return re.sub(r'//.*', lambda comment: ' ' * len(comment.group()), text)


def closing(code, opening):
    """The place of the bracket that closes the one at the place `opening`."""
    depth = 0
    for place in range(opening, len(code)):
        depth += (code[place] in OPENING) - (code[place] in CLOSING)
        if depth == 0:
            return place
    raise Failure('a bracket does not close: ' + code[opening:opening + 60])


def lines_with_comment(file, text, start, end):
    """The lines of the text from start to end, and those of comments and attributes directly above them."""
    first = text.count('\n', 0, start)
    last = text.count('\n', 0, end)
    above = first
    while above > 0 and re.match(r' *(//|#\[)', file.lines[above - 1]):
        above -= 1
    return file.lines[above:last + 1]


def read_types(file, text):
    code = blank_comments(text)
    for match in TYPE.finditer(code):
        begin = end = re.compile(r'[{(;]').search(code, match.end()).start()
        if code[end] != ';':
            end = closing(code, end)
        inside = code[begin:end]
        fields = set(re.findall(r'(\w+) *:', inside))
        braces = [ghost.end() - 1 for ghost in GHOST_FIELD.finditer(inside)]
        clauses = [inside[brace + 1:closing(inside, brace)] for brace in braces]
        yield DeclaredType(file, match.group(1), lines_with_comment(file, text, match.start(), end), fields, clauses)


def read_functions(file, text):
    code = blank_comments(text)
    for match in FUNCTION.finditer(code):
        begin = code.index('(', match.end())
        end = closing(code, begin)
        parameters = set(re.findall(r'(\w+) *:', code[begin:end]) + re.findall(r'\w+', code[match.end():begin])) # types too
        clauses, body = read_clauses(code, end)
        while code[body - 1].isspace():
            body -= 1
        lines = lines_with_comment(file, text, match.start(), body - 1)
        yield Function(file, match.group(1), lines, parameters, clauses)
    for member in GHOST_MEMBER.finditer(code):  # what an impl says is as good as a contract
        brace = member.end() - 1
        yield Function(file, member.group(), [], set(), [code[brace + 1:closing(code, brace)]])


def read_clauses(code, start):
    """The texts of the clauses behind a signature that ends at the place start, and the place of the body."""
    clauses = []
    while True:
        brace = code.index('{', start)
        if not CLAUSE.search(code, start, brace):
            return clauses, brace
        start = closing(code, brace) + 1
        clauses.append(code[brace + 1:start - 1])


def clause_names(clauses, bound):
    """The free names of clauses that may name these besides."""
    return [name for clause in clauses for name in free_names(clause, bound.union(OF_CONTRACTS))[0]]


# ---- What a name stands for

INNER_PATH = re.compile(r'Rattle\.([^.]+)\.specs\.(.+)')


class Project:
    """All crates: their files of definitions, the types that their code declares, and its functions."""

    def __init__(self):
        self.files = {}  # (crate, module) -> File of definitions
        self.types = {}  # (crate, name) -> DeclaredType
        self.functions = []
        self.crates = sorted(folder.name for folder in (ROOT / 'crates').iterdir() if folder.is_dir())
        for crate in self.crates:
            self.read_crate(crate)
        for item in self.definitions():
            item.rests_on = self.things(item.file, definition_names(item, self.constructor_test(item.file)))
        for (crate, _), declared in self.types.items():
            cited = self.things(declared.file, clause_names(declared.clauses, declared.fields))
            declared.rests_on = list(dict.fromkeys(self.types_inside(crate, declared) + cited))
        for function in self.functions:
            function.rests_on = self.things(function.file, clause_names(function.clauses, function.parameters))

    def read_crate(self, crate):
        folder = ROOT / 'crates' / crate
        for path in sorted(folder.glob('specs/**/*.antt')):
            module = path.relative_to(folder / 'specs').with_suffix('').as_posix()
            file = File(path.relative_to(ROOT).as_posix(), path.read_text(encoding='utf-8'))
            read_definitions(file)
            self.files[crate, module] = file
        for path in sorted(folder.glob('src/**/*.rt')):
            text = path.read_text(encoding='utf-8')
            file = File(path.relative_to(ROOT).as_posix(), text)
            self.types.update(((crate, declared.name), declared) for declared in read_types(file, text))
            self.functions += read_functions(file, text)

    def calls(self):
        home = 'crates/%s/' % LIBRARY
        return [function for function in self.functions if function.is_exported and function.file.path.startswith(home)]

    def definitions(self):
        return [item for file in self.files.values() for item in file.definitions]

    def constructor_test(self, file):
        """In a pattern, a name of the toolchain's library is taken for a constructor too: its files are not read."""
        def is_constructor(name):
            try:
                found = self.look_up(file, name)
            except Failure:
                return False
            return found.is_constructor or isinstance(found.thing, Symbol)
        return is_constructor

    def things(self, file, names):
        """What these names stand for in a file: each thing once, in order."""
        return list(dict.fromkeys(self.look_up(file, name).thing for name in names))

    def look_up(self, file, token):
        """A name is written as it is or, if it is an operator, in parts between its arguments."""
        for name in [token] + [name for name in (*file.own, *file.brought) if token in name.split(HOLE)]:
            if name in file.own:
                return file.own[name]
            if name in file.brought:
                return self.member(file, *file.brought[name])
        module, _, last = token.rpartition('.')
        if module in file.modules:
            return self.member(file, file.modules[module], last)
        if token in OPEN_NAMES:
            return Found(Symbol('', token), False)
        if module:
            return self.look_up(file, module)  # a constructor behind its data type, or a part of a definition
        raise Failure('%s: no telling what %s is' % (file.path, token))

    def member(self, user, path, name):
        """What a module has under a name. A module that is no crate's here is the toolchain's."""
        match = INNER_PATH.fullmatch(path)
        if not match or match.group(1) not in self.crates:
            return Found(Symbol(path, name), False)
        crate, inner = match.groups()
        if inner.startswith('declared.'):
            _, declared, *variants = inner.split('.')
            if (crate, declared) in self.types:
                return Found(self.types[crate, declared], bool(variants))
        elif (crate, inner.replace('.', '/')) in self.files:
            try:
                return self.look_up(self.files[crate, inner.replace('.', '/')], name)
            except Failure:
                raise Failure('%s: there is no %s in %s' % (user.path, name, path)) from None
        raise Failure('%s: there is no %s' % (user.path, path))

    def types_inside(self, crate, declared):
        """The declared types of the fields of one, in its own crate or by a line `use crate::Type;`."""
        code = blank_comments('\n'.join(declared.lines))
        fields = ' '.join(' '.join(found) for found in FIELD.findall(code))
        used = re.findall(r'^use (\w+)::\{?([\w, ]+)\}?;', '\n'.join(declared.file.lines), re.MULTILINE)
        homes = {name: home for home, names in used for name in re.findall(r'\w+', names) if (home, name) in self.types}
        inside = [self.types.get((homes.get(word, crate), word)) for word in re.findall(r'\w+', fields)]
        return [one for one in dict.fromkeys(inside) if one and one is not declared]


def closure(starts):
    """All that these rest on, directly or not."""
    reached, to_do = {}, list(starts)
    while to_do:
        for thing in to_do.pop().rests_on:
            if thing not in reached:
                reached[thing] = True
                if not isinstance(thing, Symbol):
                    to_do.append(thing)
    return reached


# ---- The table of headings

ENTRY = re.compile(r'(\w+)/([\w/]+)(?:: (.+))?')


class Section:
    def __init__(self, heading):
        self.heading = heading
        self.prose = []
        self.entries = []


class Entry:
    """A line of the table: a module, with the names that it takes or, where it has none, all that no other takes."""

    def __init__(self, text, crate, module, names):
        self.text = text
        self.place = (crate, module)
        self.names = names.split() if names else None
        self.definitions = []


def read_table(text):
    """The prose before the first heading, and the sections."""
    sections = [Section('')]
    for number, line in enumerate(text.split('\n'), 1):
        entry = ENTRY.fullmatch(line)
        if line.startswith('# '):
            sections.append(Section(line[2:]))
        elif line == '>' or line.startswith('> '):
            sections[-1].prose.append(line[2:])
        elif entry and len(sections) > 1:
            sections[-1].entries.append(Entry(line, *entry.groups()))
        elif line.strip() and not is_comment(line):
            raise Failure('%s:%d: neither a heading nor prose nor a module: %s' % (TABLE, number, line))
    return sections[0].prose, sections[1:]


def takes(entry, item, named):
    """Does the entry take this definition of its module? `named` has those that any entry names."""
    return item.name in entry.names if entry.names else (entry.place, item.name) not in named


def fill(entries, project, needed):
    """Gives each entry its definitions. Returns what is wrong with the table."""
    wrong, taken = [], collections.Counter()
    named = {(entry.place, name) for entry in entries for name in entry.names or ()}
    for entry in entries:
        if entry.place not in project.files:
            wrong.append('%s: there is no such file' % entry.text)
            continue
        candidates = project.files[entry.place].definitions
        entry.definitions = [item for item in candidates if item in needed and takes(entry, item, named)]
        taken.update(entry.definitions)
        for name in sorted(set(entry.names or ()) - {item.name for item in entry.definitions}):
            wrong.append('%s: no call rests on a definition %s of that file' % (entry.text, name))
        if not entry.definitions:
            wrong.append('%s: no call rests on anything there' % entry.text)
    for item in project.definitions():
        if item in needed and taken[item] != 1:
            many = 'more than one' if taken[item] else 'no'
            wrong.append('%s %s: %s line takes it' % (item.file.path, item.name, many))
    return wrong


def misplaced(entries):
    """What is shown before something that it uses."""
    shown, wrong = set(), []
    order = [item for entry in entries for item in entry.definitions]
    for item in order:
        shown.add(item)
        for used in item.rests_on:
            if used in order and used not in shown:
                wrong.append('%s %s is shown before %s %s, which it uses'
                             % (item.file.path, item.name, used.file.path, used.name))
    return wrong


# ---- The page

TITLE = '# What Lutniorad promises'


def fenced(language, path, lines):
    return ['', '`%s`' % path, '', '```' + language] + lines + ['```']


def definition_lines(definitions):
    """Definitions below each other, those of a block below its line."""
    lines, block = [], ''
    for item in definitions:
        if lines:
            lines.append('')
        if item.block != block and item.block:
            lines.append(item.block)
        block = item.block
        indent = ' ' * BLOCK_DEPTH if block else ''
        lines += [(indent + line).rstrip() for line in item.lines]
    return lines


def new_types(definitions, shown):
    """The declared types that these rest on and that are not shown yet, each behind those of its own fields."""
    found = []
    for thing in definitions:
        for declared in thing.rests_on:
            if isinstance(declared, DeclaredType) and declared not in shown:
                shown.add(declared)
                found += new_types([declared], shown) + [declared]
    return found


def section_lines(section, shown_types):
    lines = ['', '## ' + section.heading]
    if section.prose:
        lines += [''] + section.prose
    for entry in section.entries:
        types = new_types(entry.definitions, shown_types)
        for path, group in itertools.groupby(types, lambda declared: declared.file.path):
            lines += fenced('rust', path, below_each_other(group))
        lines += fenced('antt', entry.definitions[0].file.path, definition_lines(entry.definitions))
    return lines


def below_each_other(things):
    """Their lines, with an empty one between."""
    lines = []
    for thing in things:
        lines += ([''] if lines else []) + thing.lines
    return lines


def library_lines(needed):
    """The names that are the toolchain's, by its modules."""
    names = collections.defaultdict(list)
    for thing in needed:
        if isinstance(thing, Symbol):
            names['`%s`' % thing.module if thing.module else 'the language itself'].append('`%s`' % thing.name)
    return ['- %s: %s' % (module, ', '.join(sorted(names[module]))) for module in sorted(names)]


def namesake_lines(definitions):
    """Of each name that two definitions have: who means which."""
    lines = []
    for name, many in sorted(collections.Counter(item.name for item in definitions).items()):
        for item in definitions:
            if many > 1 and item.name == name:
                users = ['`%s`' % user.name for user in definitions if item in user.rests_on and user is not item]
                lines.append('- `%s` of `%s` is meant by %s' % (name, item.file.path, ', '.join(users)))
    return lines


def renamed_lines(things):
    """Of each name that the files of these bring in under another: which it is."""
    files = dict.fromkeys(thing.file for thing in things)
    return ['- in `%s`, `%s` is `%s` of `%s`' % (file.path, name, original, path)
            for file in files for name, (path, original) in sorted(file.brought.items()) if name != original]


def count_lines(definitions):
    return sum(1 for item in definitions for line in without_comments(item.lines) if line.strip())


def counts(calls, definitions, needed):
    types = sum(1 for thing in needed if isinstance(thing, DeclaredType))
    return ('%d calls rest on %d definitions, %d lines without their comments, and on %d types that the code declares. '
            "What they use beyond that is the toolchain's:"
            % (len(calls), len(definitions), count_lines(definitions), types))


def page(project):
    """The text of the page."""
    calls = project.calls()
    if not calls:
        raise Failure('crates/%s exports no call' % LIBRARY)
    needed = closure(calls)
    prose, sections = read_table((ROOT / TABLE).read_text(encoding='utf-8'))
    entries = [entry for section in sections for entry in section.entries]
    wrong = fill(entries, project, needed) or misplaced(entries)
    if wrong:
        raise Failure('\n'.join([TABLE + ' does not fit the crates:'] + wrong))
    definitions = [item for entry in entries for item in entry.definitions]
    lines = [TITLE, ''] + prose + ['', counts(calls, definitions, needed), '']
    lines += library_lines(needed)
    with_care = namesake_lines(definitions) + renamed_lines(definitions + calls)
    if with_care:
        lines += ['', 'Names to read with care:', ''] + with_care
    shown_types = set()
    for section in sections:
        lines += section_lines(section, shown_types)
    lines += fenced('rust', calls[0].file.path, below_each_other(calls))
    return '\n'.join(lines) + '\n'


# ---- What it is called for

def show(definitions):
    for item in definitions:
        print(item.file.path, item.name)


def uncited(project):
    cited = closure(project.functions)
    return [item for item in project.definitions() if item not in cited]


def strays(project):
    """The definitions that stand among what contracts cite, and are cited by none. The words of promises stand apart."""
    return [item for item in uncited(project) if not item.file.path.endswith(PROMISES)]


def inner(project):
    cited = closure(project.functions)
    promised = closure(project.calls())
    return [item for item in project.definitions() if item in cited and item not in promised]


def check_strays(project):
    """Is all that stands in specs/ cited by a contract, but for words of promises?"""
    found = strays(project)
    show(found)
    if found:
        print('no contract rests on these: they belong into proofs/ or into specs/*' + PROMISES)
    return 1 if found else 0


def check_page(text):
    """Is the page current? Where it is not, shows the first differences."""
    path = ROOT / PAGE
    standing = path.read_text(encoding='utf-8') if path.exists() else ''
    if standing == text:
        print(PAGE + ' is current')
        return 0
    before, after = standing.split('\n'), text.split('\n')
    differences = difflib.unified_diff(before, after, PAGE, 'as the crates are now', n=1, lineterm='')
    print('\n'.join(itertools.islice(differences, DIFF_SHOWN)))
    print("%s is not current: 'make statement' makes it" % PAGE)
    return 1


def main(arguments):
    project = Project()
    if arguments == ['--uncited']:
        show(uncited(project))
    elif arguments == ['--inner']:
        show(inner(project))
    elif arguments == ['--check']:
        return check_strays(project) or check_page(page(project))
    elif not arguments:
        (ROOT / PAGE).write_text(page(project), encoding='utf-8')
    else:
        print(__doc__)
        return 2
    return 0


if __name__ == '__main__':
    try:
        sys.exit(main(sys.argv[1:]))
    except Failure as failure:
        print(failure, file=sys.stderr)
        sys.exit(1)

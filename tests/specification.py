#!/usr/bin/env python3
"""What a reader must believe beside the crate of definitions.

Every definition outside crates/definitions/specs that a contract cites (of a function that another crate or the C host can reach, or of a
program), or a law of a trait or an invariant of a type that can be reached, or that a theorem states which docs/DEMANDS.md or
docs/SPECIFICATION.md names, with what these definitions cite in turn, has to stand in the table 'Beside the definitions' of
docs/SPECIFICATION.md, and nothing else. The plan's list itself is left open by document 01, so the search stops at `plan`. Usage, at the
repository's root: tests/specification.py"""
import glob
import os
import re
import sys

TOKEN = re.compile(r'[^\s(){}\[\];,.«»"`:⌜⌝λ]+')
HEAD = re.compile(r'^(abbrev |unfoldable )?(pub )?(data |record )?([^\s(){}:;=]+)(?: [({](?:[^(){}]|\([^()]*\))*[)}])* : ')
BOUND = re.compile(r'[({]([^\s(){}:]+(?: [^\s(){}:]+)*) : ')
USE = re.compile(r'^(?:ghost |unfoldable )?(?:pub )?use Rattle\.(?!std\b)(\w+)\.((?:specs|proofs)\.[\w.]+?)(?:\.\{([^}]*)\}| as (\w+))?;?$')
HEADER = re.compile(r'(pub )?(?:struct|enum|trait|(impl))\b(.*)')
LAW = re.compile(r'^\s+ghost \w+(?::| =) \{(.*?)\}[,;]$', re.M | re.S)
STOP = {('plan', 'specs.Numbered', 'plan')}


def read(path):
    with open(path, encoding='utf8') as file:
        return file.read()


def code_lines(path):
    """the lines of a file without comments"""
    return [line for line in read(path).split('\n') if not line.strip().startswith(('--', '//'))]


class Imports:
    """what the names of a file mean: (crate, module, name) for those that come from specs/ and from the theorems' files in proofs/"""

    def __init__(self, lines, own=None):
        self.names, self.modules = {}, {}
        for line in lines:
            found = USE.match(line.strip())
            if not found:
                continue
            crate, module, names, alias = found.groups()
            if module.split('.')[1] == 'declared':
                continue
            if names is None:
                self.modules[alias or module.split('.')[-1]] = (crate, module)
                continue
            for name in names.split(','):
                words = name.strip().split(' as ')
                if words[0]:
                    self.names[words[-1]] = (crate, module, words[0])
        self.own = own

    def cited(self, text):
        found = {self.names[token] for token in TOKEN.findall(text) if token in self.names}
        for alias, (crate, module) in self.modules.items():
            for name in re.findall(r'(?<![\w.])' + re.escape(alias) + r'\.([^\s(){}\[\];,.⌜⌝]+)', text):
                found.add((crate, module, name))
        if self.own:
            crate, module, names = self.own
            bound = {name for group in BOUND.findall(text) for name in group.split()}
            found |= {(crate, module, token) for token in TOKEN.findall(text) if token in names and token not in bound}
        return found


class Declaration:
    def __init__(self, head, lines, sections):
        self.kind, self.public = (head.group(3) or head.group(1) or '').strip(), bool(head.group(2))
        self.lines, self.sections = lines, sections
        # a law has a type alone; types and functions are named by a capital or say that they may be unfolded
        self.is_definition = bool(self.kind) or head.group(4)[0].isupper()

    def statement(self):
        """a law's type, with the parameters of the sections that it stands in"""
        indent = len(self.lines[0]) - len(self.lines[0].lstrip())
        taken = [self.lines[0]]
        for line in self.lines[1:]:
            if line.strip() and len(line) - len(line.lstrip()) <= indent:
                break
            taken.append(line)
        return '\n'.join(self.sections + taken)

    def whole(self):
        return '\n'.join(self.sections + self.lines)


def declarations(path):
    """the declarations of a file of specs/ or proofs/ by name, the data types of its constructors, and the fields of its records"""
    found, constructors, fields, sections, current = {}, {}, set(), [], None
    for line in code_lines(path):
        if not line.strip() or line.startswith(('use ', 'pub use ', 'pub mod ')):
            continue
        indent = len(line) - len(line.lstrip())
        while sections and indent <= sections[-1][0]:
            sections.pop()
        if re.match(r'\s*module .* where\s*$', line):
            sections.append((indent, line.strip()))
            current = None
            continue
        head = HEAD.match(line.strip()) if indent == (sections[-1][0] + 2 if sections else 0) else None
        if head:
            current = Declaration(head, [line], [text for _, text in sections])
            name = head.group(4)
            found[name] = current
        elif current:
            current.lines.append(line)
            part = re.match(r'\s+(?:pub )?([^\s(){}:;=]+) : ', line)
            if part and current.kind == 'data':
                constructors[part.group(1)] = name
            if part and current.kind == 'record':
                fields.add(part.group(1))
    return found, constructors, fields


def specifications():
    """(crate, module) to its declarations, constructors, fields and imports; what stands in a folder of proofs/ is the proof of one function"""
    modules = {}
    for path in glob.glob('crates/*/specs/**/*.antt', recursive=True) + glob.glob('crates/*/proofs/*.antt'):
        _, crate, *module = path[:-5].split('/')
        module = '.'.join(module)
        found, constructors, fields = declarations(path)
        own = (crate, module, set(found) | set(constructors))
        modules[crate, module] = (found, constructors, fields, Imports(code_lines(path), own))
    return modules


def blocks(path):
    """the lines of a source file, each with the first line of the trait, type or impl that it stands in, if others can reach that"""
    lines = code_lines(path)
    closed = set(re.findall(r'^(?:struct|enum|trait) (\w+)', '\n'.join(lines), re.M))
    block = ''
    for line in lines:
        header = HEADER.match(line)
        if header:
            public, implements, named = header.groups()
            block = line if (not closed & set(re.findall(r'\w+', named)) if implements else public) else ''
        yield line, block
        if line == '}':
            block = ''


def contracts(path, every):
    """the contracts of the functions of a source file that others can reach, a trait's with them, or of every function"""
    texts, current = [], None
    for line, block in blocks(path):
        text = line.strip()
        if re.match(r'(pub )?(extern "C" )?(pub )?fn ', text) or ' fn ' in text.split('(')[0]:
            of_trait = block.startswith('pub trait') or ' for ' in block
            current = [] if every or of_trait or text.startswith('pub ') else None
        if current is not None and text.startswith(('requires', 'ensures')):
            current.append(text)
        if (text == '{' or text.endswith(';')) and current is not None:
            texts += current
            current = None
    return '\n'.join(texts)


def laws(path):
    """what the laws of traits and the invariants of types say that others can reach: `ghost NAME = { .. };` and `ghost NAME: { .. },`"""
    return '\n'.join(LAW.findall('\n'.join(line for line, block in blocks(path) if block)))


def roots(modules):
    """what contracts and top statements cite"""
    found = set()
    for crate in sorted(os.listdir('crates')):
        program = os.path.exists(f'crates/{crate}/src/main.rt')
        main = f'crates/{crate}/src/' + ('main.rt' if program else 'lib.rt')
        inner = re.findall(r'^(?:pub )?mod (\w+);' if program else r'^pub mod (\w+);', read(main), re.M)
        for path in [main] + [f'crates/{crate}/src/{name}.rt' for name in inner]:
            found |= Imports(code_lines(path)).cited(contracts(path, program) + '\n' + laws(path))
    documents = read('docs/DEMANDS.md').split('## How it is proved')[0] + read('docs/SPECIFICATION.md').split('## Beside the definitions')[0]
    # a law by its name, a word without a line below too; a word of the documents that is no law names a definition or something of the code
    words = set(re.findall(r'`([a-z][a-z0-9]*(?:_[a-z0-9]+)*)`', documents))
    # a record's fields are stated with it; facts about the definitions alone cite nothing beside them
    known = {field for _, _, fields, _ in modules.values() for field in fields}
    known |= {name for path in glob.glob('crates/definitions/proofs/*.antt') for name in declarations(path)[0]}
    # a definition of the documents may share its name with a law of another crate
    known |= {name for (crate, _), (found_here, *_) in modules.items() if crate == 'definitions' for name in found_here if found_here[name].is_definition}
    public = set()
    for (crate, module), (declared, _, _, imports) in modules.items():
        for name, found_here in declared.items():
            if not found_here.public:
                continue
            public.add(name)
            if name in words - known and not found_here.is_definition:
                found |= imports.cited(found_here.statement()) - {(crate, module, name)}
    code = {token for path in glob.glob('crates/**/*.rt', recursive=True) for token in re.findall(r'\w+', '\n'.join(code_lines(path)))}
    unknown = words - known - public - code - set(os.listdir('crates'))
    for name in sorted(unknown):
        print(f'the documents name `{name}`, which no specification and no code declares')
    return found, bool(unknown)


def believed(modules, start):
    """the definitions among what is cited, and what these cite in turn"""
    done, left = set(), set(start)
    while left:
        crate, module, name = left.pop()
        if crate == 'definitions':
            continue
        if (crate, module) not in modules:
            done.add((crate, module, name))
            continue
        declared, constructors, _, imports = modules[crate, module]
        if name not in declared and name in imports.names:
            left.add(imports.names[name])
            continue
        name = name if name in declared else constructors.get(name, name)
        key = (crate, module, name)
        if key in done or name not in declared or not declared[name].is_definition:
            continue
        done.add(key)
        if key not in STOP:
            left |= imports.cited(declared[name].whole()) - done
    return done


def listed():
    """the table of docs/SPECIFICATION.md"""
    found = set()
    table = read('docs/SPECIFICATION.md').split('## Beside the definitions')[1].split('\n## ')[0]
    for line in table.split('\n'):
        row = re.match(r'\| `(\w+)/((?:specs|proofs)/[\w/]+)` \| (.*?) \|', line)
        if row:
            crate, module, names = row.groups()
            found |= {(crate, module.replace('/', '.'), name) for name in re.findall(r'`([^`]+)`', names)}
    return found


def main():
    modules = specifications()
    start, unknown = roots(modules)
    needed, there = believed(modules, start), listed()
    for word, rows in (('is not listed', needed - there), ('is listed and not cited', there - needed)):
        for crate, module, name in sorted(rows):
            print(f'{crate}/{module.replace(".", "/")}: {name} {word}')
    if unknown or needed != there:
        sys.exit('docs/SPECIFICATION.md does not list what stands beside the definitions')
    print(f"the specification: {len(needed)} definitions beside those of the documents, all listed")


main()

#!/usr/bin/env python3
"""Lists names that nothing uses: imports, lemmas and definitions, functions.

usage: unused_names.py [CRATE ..]    all crates are read, and what is found in those that are named is listed; all where none is

What it lists: a name that a file imports and does not mention; a lemma or definition of specs/ or proofs/ that no contract, no answer
and no other lemma in use refers to; a function that is defined once and called nowhere. It goes by the words of the text, so a method
with the name of another is taken for used, and a trait that is imported for its methods is not listed. A function that only tests call
is listed with '(tests)'. `rt check` has the last word on each.
"""
import os
import re
import sys
from collections import namedtuple

ROOT = os.path.dirname(os.path.dirname(os.path.abspath(__file__)))
USE = re.compile(r'^([ \t]*)((?:pub )?(?:ghost )?use) ([^;{\s]+?)(?:\{([^}\n]*)\})?(?: as (\S+?))?;?[ \t]*$', re.M)
CLAUSE = re.compile(r'\b(?:requires|ensures)\s+(?:\w+\s+)?(?:\*\s*)?(?=\{)')
GHOST_ITEM = re.compile(r'\bghost (?!use\b)\w+[^{};]*(?=\{)')
DEFINED = re.compile(r'^(?:(?:pub|private|abbrev|unfoldable) )*(?:(record|data) )?([^\s:(){}]+)(?=[ :])')
MEMBER = re.compile(r'^\s+(?:pub )?([^\s:(){}]+(?: [^\s:(){}]+)*) :')
WORD = re.compile(r'[^\s(){},;.\[\]]+')
EXAMPLES = re.compile(r'--[^\n]*(?: at small |that are written out)')
FUNCTION = re.compile(r'\bfn (\w+)')
OUTSIDE = re.compile(r'#\[(?:test|unsafe\(no_mangle\))[^\]]*\]\s*(?:pub )?(?:unsafe )?(?:extern "C" )?$')
BLANKS = re.compile(r'[^\n]')

Import = namedtuple('Import', 'line name path item is_ghost')


def read(file):
    with open(os.path.join(ROOT, file), encoding='utf-8') as text:
        return text.read()


def files_below(folder, ending):
    found = []
    for place, folders, names in os.walk(os.path.join(ROOT, folder)):
        folders[:] = sorted(name for name in folders if name not in ('out', 'data'))
        found += [os.path.relpath(os.path.join(place, name), ROOT) for name in sorted(names) if name.endswith(ending)]
    return found


def without_comments(text, mark):
    return re.sub(rf'(?:^|(?<=\s)){mark}[^\n]*', '', text, flags=re.M)


def balanced(text, start):
    """The end of the brace that opens at `start`."""
    depth = 0
    for at in range(start, len(text)):
        depth += {'{': 1, '}': -1}.get(text[at], 0)
        if depth == 0:
            return at + 1
    return len(text)


def words_of(text):
    words = set(WORD.findall(text))
    if re.search(r'\[\s*\]', text):
        words.add('[]')
    return words | {word.lstrip('λ¬') for word in words}


def is_mentioned(name, words):
    if name in words:
        return True
    pieces = [piece for piece in name.split('◌') if piece]
    return '◌' in name and all(piece in words for piece in pieces)


def imports_of(text):
    """(the imports, the text with blanks in their place)"""
    imports = []

    def note(found):
        _, word, path, group, alias = found.groups()
        line = text.count('\n', 0, found.start()) + 1
        path = path.strip()
        ghost = 'ghost' in word or path.startswith('Rattle.')
        if word.startswith('pub'):
            return found.group()
        for part in (group.split(',') if group is not None else ['']):
            item, _, name = part.strip().partition(' as ')
            if group is not None and not item:
                continue
            short = name or item or alias or re.split(r'[.:]+', path)[-1]
            imports.append(Import(line, short.strip(), path.rstrip('.:'), item, ghost))
        return BLANKS.sub(' ', found.group())

    return imports, USE.sub(note, text)


def joined_uses(text):
    """The text with each import on one line, the others kept in place."""
    return re.sub(r'(?m)^[ \t]*(?:ghost )?use [^;{}\s]*\{[^}]*\}', lambda found: re.sub(r'\s*\n\s*', ' ', found.group()) + '\n' * found.group().count('\n'), text)


def ghost_text(text):
    """What contracts and ghost items say."""
    parts = []
    for kind in (CLAUSE, GHOST_ITEM):
        for found in kind.finditer(text):
            end = balanced(text, found.end())
            more = re.compile(r'\s*(?:by|=) (?=\{)').match(text, end)
            parts.append(text[found.start():balanced(text, more.end()) if more else end])
    parts += re.findall(r'#!?\[[^\]]*\]', text) + re.findall(r'prove!\([^;]*;', text)
    return ' '.join(parts)


def blocks_with_imports(text):
    """The bodies of `impl` blocks that have imports of their own, as spans."""
    spans = []
    for found in re.finditer(r'(?m)^(?:unsafe )?(?:impl|pub trait|trait|pub struct)\b[^{;]*(?=\{)', text):
        end = balanced(text, found.end())
        if re.search(r'(?m)^\s+ghost use', text[found.end():end]):
            spans.append((found.end(), end))
    return spans


# Definitions

class Definition:
    def __init__(self, file, line, name, is_root):
        self.file, self.line, self.name, self.is_root = file, line, name, is_root
        self.text = ''
        self.members = set()


def definitions_of(file, text):
    """The definitions of an .antt file, each with its text; what is written of one name belongs together."""
    found, current, inside = {}, None, False
    text = re.sub(r' :\n\s+goal\.', ' : goal.', text)
    answers = os.path.basename(file) in ('Answers.antt', 'Proof.antt')
    invariants = os.path.basename(file) == 'Invariants.antt'
    example = EXAMPLES.match(read(file))
    for number, line in enumerate(text.split('\n'), 1):
        bare = line
        if line.startswith('mutual'):
            inside = True
            continue
        if inside and line[:2] == '  ' and line[2:3].strip():
            bare = line[2:]
        elif line[:1].strip():
            inside = False
        head = DEFINED.match(bare)
        if head and not bare.startswith(('use ', 'pub use ', 'mod ', 'pub mod ', 'unfolding', 'open ')):
            name = head.group(2)
            if name not in found:
                goal = example or invariants or bare.partition(' : ')[2].startswith('goal.') or (answers and 'goal.' in bare)
                found[name] = Definition(file, number, name, goal)
            current = found[name]
            bare = bare[head.end():]
        elif current is not None:
            member = MEMBER.match(line)
            if member:
                current.members.update(member.group(1).split())
        if current is not None:
            current.text += bare + '\n'
    return found


class Repository:
    def __init__(self):
        self.definitions = {}       # file -> name -> Definition
        self.imports = {}           # file -> imports
        self.bodies = {}            # file -> text without imports and comments
        for file in files_below('crates', '.antt'):
            text = joined_uses(without_comments(read(file), '--'))
            self.imports[file], self.bodies[file] = imports_of(text)
            self.definitions[file] = definitions_of(file, self.bodies[file])
        for file in files_below('crates', '.rt'):
            text = joined_uses(without_comments(read(file), '//'))
            self.imports[file], self.bodies[file] = imports_of(text)

    def file_of(self, path):
        """The .antt file that a module's path names, and the rest of the path."""
        parts = path.split('.')
        if parts[0] != 'Rattle' or len(parts) < 3:
            return None, []
        for end in range(len(parts), 2, -1):
            file = f'crates/{parts[1]}/{"/".join(parts[2:end])}.antt'
            if file in self.definitions:
                return file, parts[end:]
        return None, []

    def unused_imports(self, file):
        text = self.bodies[file]
        if file.endswith('.antt'):
            words = words_of(text)
            return [each for each in self.imports[file] if not is_mentioned(each.name, words)]
        spans = [(text.count('\n', 0, a) + 1, text.count('\n', 0, b) + 1, words_of(ghost_text(text[a:b]))) for a, b in blocks_with_imports(text)]
        whole, code = words_of(ghost_text(text)), set(re.findall(r'\w+', text))
        unused = []
        for each in self.imports[file]:
            words = next((words for first, last, words in spans if first <= each.line <= last), whole)
            if each.is_ghost and not is_mentioned(each.name, words):
                unused.append(each)
            elif not each.is_ghost and each.name not in code and not each.name[:1].isupper() and each.name not in ('_', '*'):
                unused.append(each)
        return unused

    def targets(self, file, words):
        """The definitions that some words of a file stand for."""
        own = self.definitions.get(file, {})
        for name, each in own.items():
            if is_mentioned(name, words) or each.members and any(is_mentioned(member, words) for member in each.members):
                yield each
        for found in self.imports[file]:
            if not is_mentioned(found.name, words):
                continue
            path = f'{found.path}.{found.item}' if found.item else found.path
            home, rest = self.file_of(path)
            if home is None:
                continue
            if not rest:
                for name, each in self.definitions[home].items():
                    if is_mentioned(name, words):
                        yield each
                continue
            for name, each in self.definitions[home].items():
                if name in rest or each.members & set(rest):
                    yield each

    def in_use(self):
        """The definitions that contracts and answers lead to."""
        waiting = []
        for file in self.imports:
            if file.endswith('.rt'):
                waiting += self.targets(file, words_of(ghost_text(self.bodies[file])))
            else:
                waiting += [each for each in self.definitions[file].values() if each.is_root]
        known = set()
        while waiting:
            each = waiting.pop()
            if id(each) not in known:
                known.add(id(each))
                waiting += self.targets(each.file, words_of(each.text))
        return known


def unused_functions():
    """(file, line, name, whether tests call it) of the functions of the program that are named nowhere else."""
    defined, named, tested = {}, {}, {}
    for file in files_below('crates', '.rt'):
        text = without_comments(read(file), '//')
        text = re.sub(r'(?m)^\s*pub use [^;]*;', '', text)
        crate = file.split('/')[1]
        for word in re.findall(r'\w+', re.sub(r'(?m)^\s*use [^;]*;', '', text)):
            table = tested if crate.endswith('_tests') else named
            table[word] = table.get(word, 0) + 1
        if not crate.endswith('_tests'):
            for found in FUNCTION.finditer(text):
                is_law = text.startswith('{}', text.find('\n{', found.end()) + 1)
                if is_law or OUTSIDE.search(text[max(0, found.start() - 90):found.start()]):
                    continue
                defined.setdefault(found.group(1), []).append((file, text.count('\n', 0, found.start()) + 1))
    for name, places in sorted(defined.items(), key=lambda item: item[1]):
        calls = named[name] - len(places)
        if len(places) == 1 and calls == 0 and name != 'main':
            yield places[0] + (name, tested.get(name, 0) > 0)


def main():
    wanted = sys.argv[1:] or sorted(os.listdir(os.path.join(ROOT, 'crates')))
    repository = Repository()
    in_use = repository.in_use()
    functions = list(unused_functions())
    for crate in wanted:
        mine = [file for file in repository.imports if file.startswith(f'crates/{crate}/')]
        for file in sorted(mine):
            for each in repository.unused_imports(file):
                print(f'{file}:{each.line}: import {each.name}')
            for each in repository.definitions.get(file, {}).values():
                if id(each) not in in_use:
                    print(f'{file}:{each.line}: {"lemma" if "/proofs/" in file else "definition"} {each.name}')
        for file, line, name, tests in functions:
            if file.startswith(f'crates/{crate}/'):
                print(f'{file}:{line}: function {name}' + (' (tests)' if tests else ''))


if __name__ == '__main__':
    main()

#!/usr/bin/env python3
"""Whether docs/STATEMENTS.md names what is there. The last line is `N passed, M failed`; exits with 0 exactly when M is 0.

  statements.py [--write] [DOCUMENT]     DOCUMENT in place of docs/STATEMENTS.md

Every word in backticks there must be one of these forms, and what it names must exist (`{a, b}` stands for several names):

  CRATE/specs/FILE.NAME, CRATE/proofs/FILE.NAME        a public definition, record, data type, constructor or theorem of that file
  CRATE/specs/FILE.RECORD.FIELD                        a field of a record
  CRATE/specs/FILE, CRATE/proofs/FILE                  the file
  CRATE::NAME                                          a function or a method with a contract, or a type or a trait, of CRATE/src
  CRATE/must-fail/LABEL, tests/edits/CRATE/LABEL       a must-fail edit
  a path of the repository, or a word of PLAIN below

Further: each file of specs/ stands in exactly one of the two lists of files, with its number of lines (--write puts the right numbers
there); what the files to read import from inner files is named below the list of inner files; the entry points listed are public and have `ensures` and no `requires`, and no public function of the crates in WHOLE is left out.
In the other documents and README.md the names of the first five forms must exist too.
"""
import glob
import os
import re
import sys

TOP = os.path.dirname(os.path.dirname(os.path.abspath(__file__)))
STATEMENTS = 'docs/STATEMENTS.md'
TO_READ, INNER, ENTRIES = 'Files to read', 'Inner files', 'Entry points'
# Words in backticks that name nothing of the sources.
PLAIN = {'rt ci', 'rt check', '.ci/run', 'specs/', 'proofs/', 'src/', 'must-fail/', 'requires', 'ensures', 'end', 'stop', 'schedule', 'set-up'}
# Crates whose public functions are all entry points.
WHOLE = ['calls', 'lent', 'lopresnik', 'lopresnik_c', 'tickets', 'tickets_open', 'windows']

NAME = r'[^\s`./:{},]+'
NAMES = rf'(?:{NAME}|\{{{NAME}(?:, {NAME})*\}})'
IN_FILE = re.compile(rf'^([a-z_0-9]+)/(specs|proofs)/([\w/]+?)(?:\.({NAMES}))?(?:\.({NAMES}))?$')
IN_SOURCE = re.compile(rf'^([a-z_0-9]+)::({NAMES})$')
EDIT = re.compile(rf'^(?:([a-z_0-9]+)/must-fail|tests/edits/([a-z_0-9]+))/({NAMES})$')
LISTED = re.compile(r'(`([a-z_0-9]+/specs/\w+)`(?: \|)? )(\d+)\b')
SUMMED = re.compile(r'(\d+) files, (\d+) lines')

passed, faults = 0, []


def expect(holds, fault):
    """Counts a test."""
    global passed
    if holds:
        passed += 1
    else:
        faults.append(fault)


def read(path):
    with open(os.path.join(TOP, path), encoding='utf-8') as file:
        return file.read()


def several(names):
    """`{a, b}` as a list of names."""
    return [name.strip() for name in names.strip('{}').split(',')]


# ---- what the sources define

def indent(line):
    return len(line) - len(line.lstrip())


def definitions(path):
    """The public names of an .antt file, and for each record or data type its fields or constructors."""
    names, members = set(), {}
    inside = None
    lines = read(path).split('\n')
    for i, line in enumerate(lines):
        if not line.strip() or line.lstrip().startswith('--'):
            continue
        if inside and indent(line) <= inside[1]:
            inside = None
        block = re.match(r'\s*pub (record|data) (\S+)', line)
        if block:
            inside = (block.group(2), indent(line), block.group(1))
            names.add(block.group(2))
            members[block.group(2)] = set()
            continue
        if inside:
            member = re.match(r'\s*pub (\S+) :' if inside[2] == 'record' else r'\s*(\S+) :', line)
            if member and indent(line) == inside[1] + 2:
                members[inside[0]].add(member.group(1))
                if inside[2] == 'data':
                    names.add(member.group(1))
            continue
        defined = re.match(r'\s*(?:(?:abbrev|unfoldable) )?pub (\S+) :', line)
        if defined:
            names.add(defined.group(1))
    return names, members


DEFINED = {}


def defined_in(path):
    if path not in DEFINED:
        DEFINED[path] = definitions(path)
    return DEFINED[path]


def functions(crate):
    """The functions of a crate: for each whether it is public, and what stands between its name and its body; and its types."""
    found, types = {}, set()
    for path in sorted(glob.glob(f'{TOP}/crates/{crate}/src/*.rt')):
        text = read(os.path.relpath(path, TOP))
        for match in re.finditer(r'^ *(pub )?(?:extern "C" )?fn (\w+)(.*?)\{$', text, re.M | re.S):
            found[match.group(2)] = (bool(match.group(1)), match.group(3))
        types.update(re.findall(r'^(?:pub )?(?:struct|enum|trait|const) (\w+)', text, re.M))
    return found, types


SOURCES = {}


def source_of(crate):
    if crate not in SOURCES:
        SOURCES[crate] = functions(crate)
    return SOURCES[crate]


# ---- the names in a document

def words_in(text):
    """The words in backticks; a block of code has none."""
    text = re.sub(r'^```.*?^```$', '', text, flags=re.M | re.S)
    return re.findall(r'`([^`\n]+)`', re.sub(r'^    .*$', '', text, flags=re.M))


def in_file(word, match, place):
    crate, folder, name, first, second = match.groups()
    path = f'crates/{crate}/{folder}/{name}.antt'
    if not os.path.isfile(f'{TOP}/{path}'):
        expect(False, f'{place}: `{word}`: there is no {path}')
        return
    if first is None:
        expect(True, '')
        return
    names, members = defined_in(path)
    for outer in several(first):
        if second is None:
            expect(outer in names, f'{place}: `{word}`: {path} has no public {outer}')
            continue
        for field in several(second):
            expect(field in members.get(outer, ()), f'{place}: `{word}`: {path} has no {outer} with {field}')


def in_source(word, match, place):
    crate, names = match.groups()
    found, types = source_of(crate)
    for name in several(names):
        contract = name in types or (name in found and 'ensures' in found[name][1])
        expect(contract, f'{place}: `{word}`: crates/{crate}/src has no function with a contract, and no type, {name}')


def edit(word, match, place):
    own, further, names = match.groups()
    folder = f'crates/{own}/must-fail' if own else f'tests/edits/{further}'
    for name in several(names):
        expect(os.path.isfile(f'{TOP}/{folder}/{name}.edit'), f'{place}: `{word}`: there is no {folder}/{name}.edit')


def check_word(word, place, strict):
    for form, check in ((EDIT, edit), (IN_FILE, in_file), (IN_SOURCE, in_source)):
        match = form.match(word)
        if match and (strict or os.path.isdir(f'{TOP}/crates/{match.group(1) or match.group(2)}')):
            check(word, match, place)
            return
    if strict:
        known = word in PLAIN or ('/' in word and os.path.exists(os.path.join(TOP, word)))
        expect(known, f'{place}: `{word}` has no form that can be checked')


# ---- the lists

def section(text, title):
    """What stands under a heading, up to the next of its rank."""
    match = re.search(rf'^## {title}$(.*?)(?=^## |\Z)', text, re.M | re.S)
    return match.group(1) if match else ''


def specs_files():
    """Each file of specs/ with its number of lines; a Lib.antt only lists the others."""
    found = {}
    for path in sorted(glob.glob(f'{TOP}/crates/*/specs/*.antt')):
        text, name = read(os.path.relpath(path, TOP)), path.split('/')[-1][:-5]
        if name == 'Lib':
            expect(re.fullmatch(r'(?:pub mod \S+\n)*', text), f'{path} has more than a list of files')
        else:
            found[f'{path.split("/")[-3]}/specs/{name}'] = text.count('\n')
    return found


def check_lists(text):
    files = specs_files()
    places = {}
    for title in (TO_READ, INNER):
        part = section(text, title)
        listed = [(name, int(lines)) for _, name, lines in LISTED.findall(part)]
        for name, lines in listed:
            places.setdefault(name, []).append(title)
            expect(files.get(name) == lines, f'{title}: {name} has {files.get(name, "no")} lines, not {lines}')
        sums = SUMMED.search(part)
        right = (str(len(listed)), str(sum(lines for _, lines in listed)))
        expect(sums and sums.groups() == right, f'{title}: it should say {right[0]} files, {right[1]} lines')
    for name in files:
        expect(len(places.get(name, [])) == 1, f'{name} stands in {places.get(name, "none")} of the two lists, not in one')


def imported(path):
    """What a file imports from specs/: the file, and the names, none where all of it is imported."""
    for crate, name, names in re.findall(r'^use Rattle\.(\w+)\.specs\.([A-Z]\w*)(?:\.\{([^}]*)\})?', read(path), re.M):
        yield f'{crate}/specs/{name}', several(names) if names else []


def check_closed(text):
    """The files to read import nothing of inner files but what is named."""
    inner = {name for _, name, _ in LISTED.findall(section(text, INNER))}
    named = {}
    for word in words_in(section(text, INNER)):
        match = IN_FILE.match(word)
        if match and match.group(4):
            named.setdefault('/'.join(match.group(1, 2, 3)), set()).update(several(match.group(4)))
    for _, reader, _ in LISTED.findall(section(text, TO_READ)):
        path = f'crates/{reader}.antt'
        for name, names in imported(path) if os.path.isfile(os.path.join(TOP, path)) else ():
            if name in inner:
                missing = [word for word in names if word not in named.get(name, ())]
                expect(name in named and not missing, f'{TO_READ}: {reader} imports {", ".join(missing)} of {name}, an inner file')


def with_counts(text):
    """The document with the right numbers of lines."""
    files = specs_files()
    for title in (TO_READ, INNER):
        part = section(text, title)
        new = LISTED.sub(lambda m: m.group(1) + str(files.get(m.group(2), m.group(3))), part)
        listed = [int(lines) for _, _, lines in LISTED.findall(new)]
        new = SUMMED.sub(f'{len(listed)} files, {sum(listed)} lines', new, count=1)
        text = text.replace(part, new)
    return text


def check_entries(text):
    listed = set()
    for word in words_in(section(text, ENTRIES)):
        match = IN_SOURCE.match(word)
        if match:
            listed.update((match.group(1), name) for name in several(match.group(2)))
    for crate, name in sorted(listed):
        public, contract = source_of(crate)[0].get(name, (False, ''))
        expect(public, f'{ENTRIES}: {crate}::{name} is no public function')
        expect('requires' not in contract, f'{ENTRIES}: {crate}::{name} requires something')
    for crate in WHOLE:
        for name, (public, _) in source_of(crate)[0].items():
            expect(not public or (crate, name) in listed, f'{ENTRIES}: {crate}::{name} is left out')


def main():
    document = next((word for word in sys.argv[1:] if word != '--write'), os.path.join(TOP, STATEMENTS))
    with open(document, encoding='utf-8') as file:
        text = file.read()
    if '--write' in sys.argv:
        text = with_counts(text)
        with open(document, 'w', encoding='utf-8') as file:
            file.write(text)
    for word in words_in(text):
        check_word(word, STATEMENTS, True)
    check_lists(text)
    check_closed(text)
    check_entries(text)
    for path in sorted(glob.glob(f'{TOP}/docs/*.md') + [f'{TOP}/README.md']):
        name = os.path.relpath(path, TOP)
        if name != STATEMENTS:
            for word in words_in(read(name)):
                check_word(word, name, False)
    for fault in faults:
        print(fault)
    print(f'{passed} passed, {len(faults)} failed')
    sys.exit(1 if faults else 0)


main()

#!/usr/bin/env python3
"""respell [FOLDER]: brings the repository's own definitions, lemmas and record fields to snake case.

Run once, at the top, after the kit's port.py. It goes by text: in crates/*/specs and crates/*/proofs
(and in the clauses and `ghost use` lines of crates/*/src, the must-fail edits and the pages) each
word in lower camel case, as `keptIn`, becomes `kept_in`. Types, modules, functions of src/, strings
and C names stay. Where the snake case word is taken already (TAKEN), the word gets another name.
It prints what it renamed.
"""
import os
import re
import sys

# the snake case word is another definition or lemma of the same files already
TAKEN = {
    'firstRun': 'first_run_of',
    'isKnown': 'is_known_start',
    'noRoom': 'lacks_room',
    'numberBy': 'number_told_by',
    'oneMore': 'one_more_of',
    'restEnd': 'end_of_rest',
    'wholeOut': 'whole_output',
}

WORD = re.compile(r"(?<![\w'-])[a-z][\w']*(?:-[\w']+)*")
HUMP = re.compile(r'(?<=[a-z0-9])(?=[A-Z])')
STRING = re.compile(r'"(?:[^"\\]|\\.)*"')


def snake(word):
    if word in TAKEN:
        return TAKEN[word]
    parts = []
    for part in word.split('-'):
        parts.append(HUMP.sub('_', part).lower() if part[:1].islower() and re.search('[a-z0-9][A-Z]', part) else part)
    return '-'.join(parts)


def respell(text, words, seen):
    def one(match):
        word = match.group(0)
        if words is not None and word not in words:
            return word
        new = snake(word)
        if new != word:
            seen[word] = new
        return new
    return WORD.sub(one, text)


def files(top, ending, *folders):
    for crate in sorted(os.listdir(os.path.join(top, 'crates'))):
        for folder in folders:
            for path, _, names in sorted(os.walk(os.path.join(top, 'crates', crate, folder))):
                for name in sorted(names):
                    if name.endswith(ending):
                        yield os.path.join(path, name)


def main(top):
    seen = {}
    for path in files(top, '.antt', 'specs', 'proofs'):
        turn(path, None, seen)
    words = set(seen)
    for path in list(files(top, '.rt', 'src')) + list(files(top, '.edit', 'must-fail')):
        turn(path, words, seen)
    pages = [os.path.join(path, name) for path, dirs, names in os.walk(top) for name in names
             if name.endswith('.md') and '/.git/' not in path and '/target/' not in path]
    for path in sorted(pages):
        turn(path, words, seen, True)
    for word in sorted(seen):
        print(word, seen[word])


def turn(path, words, seen, page=False):
    with open(path, encoding='utf-8') as file:
        old = file.read()
    if page:
        # names stand between backticks
        new = re.sub(r'`[^`\n]+`', lambda m: respell(m.group(0), words, seen), old)
    else:
        # strings stay
        parts, at = [], 0
        for match in STRING.finditer(old) if path.endswith('.rt') else ():
            parts += [respell(old[at:match.start()], words, seen), match.group(0)]
            at = match.end()
        new = ''.join(parts + [respell(old[at:], words, seen)])
    if new != old:
        with open(path, 'w', encoding='utf-8') as file:
            file.write(new)


main(sys.argv[1] if len(sys.argv) > 1 else '.')

"""What the scripts need of the kit: the crates of crates.txt, and the words of a `rattle` command on one of them.

A script runs `rattle` by itself only over libraries that stand already, as `rt ci`, `rt check` and
`rt lib` leave them in crates/*/out/. The words are those that `rt` gives.
"""
import os
import re
import shutil
import sys

ROOT = os.path.dirname(os.path.dirname(os.path.abspath(__file__)))
PARTS = ('src', 'specs', 'proofs')


def text_of(*path):
    with open(os.path.join(*path), encoding='utf-8') as file:
        return file.read()


def home():
    """The kit's folder."""
    rt = shutil.which('rt')
    if not rt:
        sys.exit('the Rattle toolchain is not here: no command rt')
    return os.path.dirname(os.path.dirname(os.path.realpath(rt)))


def listed():
    """The crates of crates.txt: the name, whether it is a static library, and what it names."""
    found = {}
    for line in text_of(ROOT, 'crates.txt').split('\n'):
        head, colon, deps = line.partition('#')[0].partition(':')
        if colon:
            name, *kind = head.split()
            found[name] = 'staticlib' in kind, deps.split()
    return found


def below(name):
    """The repository's libraries below a crate, each after those that it uses."""
    crates, found = listed(), []

    def walk(one):
        for dep in crates[one][1]:
            if dep in crates and dep not in found:
                walk(dep)
                if dep not in found:
                    found.append(dep)

    walk(name)
    return found


def folder(name):
    return os.path.join(ROOT, 'crates', name)


def rlib(name):
    """Where a built library of the repository stands."""
    return os.path.join(folder(name), 'out', 'rlib', f'{name}.rlib')


def unbuilt(name):
    """The libraries below a crate that are not built."""
    return [it for it in below(name) if not os.path.isfile(os.path.join(rlib(it), 'format'))]


def is_newer(names, than):
    """Whether a file that the check of one of these crates reads is newer than that file or folder, or crates.txt is."""
    at = os.stat(than).st_mtime
    if os.stat(os.path.join(ROOT, 'crates.txt')).st_mtime > at:
        return True
    for name in names:
        for part in PARTS:
            for place, _, files in os.walk(os.path.join(folder(name), part)):
                if any(os.lstat(os.path.join(place, it)).st_mtime > at for it in ('.', *files)):
                    return True
    return False


def words(name, jobs=1):
    """The words of `rattle check` or `rattle build` on a crate, in a folder that has its src/, specs/ and proofs/."""
    kit, (is_static, deps) = home(), listed()[name]
    root = 'main' if os.path.isfile(os.path.join(folder(name), 'src', 'main.rt')) else 'lib'
    said = ['--crate-name', name, f'src/{root}.rt', '--extern', f'std={kit}/rlibs/std.rlib']
    for dep in deps:
        said += ['--extern', f'{dep}={rlib(dep) if dep in listed() else f"{kit}/rlibs/{dep}.rlib"}']
    said += ['-L', f'dependency={kit}/rlibs']
    for dep in below(name):
        said += ['-L', f'dependency={os.path.dirname(rlib(dep))}']
    said += ['--antt-project', f'{kit}/rattle/logic/antt-project.json', '--logic-built', f'{kit}/logic_built']
    said += ['--jobs', str(jobs), '--links', f'{name}=']
    return said + (['--crate-type', 'staticlib'] if is_static else [])

#!/usr/bin/env python3
"""Tries the planted bugs that the gate leaves out: those of crates/*/planted/, all or those of the crates named.

Each is a line of a crate's code and a wrong one in its place, which the check of the function that it stands in has to refuse. The bugs of
crates/*/must-fail/ are tried by each `rt ci`. Here the bugs of a crate that stand in different functions are planted together, and one check of
these functions has to refuse each; one that it doesn't is planted alone, and the whole crate is checked. The checks go over the libraries
that stand in the repository, as `rt run` in crates/solr_split leaves them; one that is missing is proved first. Prints a line for each bug, and
ends with status 0 where each was refused. A bug whose text is not there once, or with which the crate is not Rattle, counts as one that was not.

    bench/planted.py sc_hash sc_router
"""
import argparse
import concurrent.futures
import os
import queue
import re
import shutil
import subprocess
import sys
import tempfile
import time

ROOT = os.path.dirname(os.path.dirname(os.path.abspath(__file__)))
HEAD_OF_FUNCTION = re.compile(r'^\s*(?:pub(?:\([a-z ]*\))?\s+)?(?:unsafe\s+)?fn\s+(\w+)', re.M)
HEAD_OF_IMPL = re.compile(r'^impl\b(?:<[^{]*?>(?=\s))?\s+(?:(?:\w+::)*(?P<trait>\w+)(?:<[^{]*?>)?\s+for\s+)?(?P<type>\w+)', re.M)
HEAD_OF_TRAIT = re.compile(r'^(?:pub(?:\([a-z ]*\))?\s+)?trait\s+(?P<type>\w+)', re.M)
HEAD_OF_TYPE = re.compile(r'^(?:pub(?:\([a-z ]*\))?\s+)?(?:struct|enum|trait)\s+(\w+)', re.M)
STRANGE = re.compile(r'(?:has no function|several functions are named) `(\S+)`')
VERDICT = re.compile(r'^fn (\S+): (.*)$', re.M)


def module_of(file):
    """The module of a file in src/, with `::` behind it; of the root file nothing."""
    name = file[len('src/'):-len('.rt')]
    return '' if name in ('lib', 'main') else name.replace('/', '::') + '::'


def module_of_type(crate, name):
    """The module in which a type or trait of the crate is defined, or None."""
    for folder, _, files in os.walk(f'{ROOT}/crates/{crate}/src'):
        for file in files:
            path = os.path.join(folder, file)
            with open(path) as source:
                if any(head[1] == name for head in HEAD_OF_TYPE.finditer(source.read())):
                    return module_of(os.path.relpath(path, f'{ROOT}/crates/{crate}'))
    return None


def path_of_function(crate, file, text, head):
    """The name by which a check calls the function with this head: a method stands under its type's name, in its type's module, and one of a
    trait under both names, in the module of the `impl`."""
    top = max(text.rfind('\n}', 0, head.start()), 0)
    owners = [*HEAD_OF_IMPL.finditer(text, top, head.start()), *HEAD_OF_TRAIT.finditer(text, top, head.start())]
    if not owners:
        return f'{crate}::{module_of(file)}{head[1]}'
    owner = owners[-1].groupdict()
    trait = owner.get('trait') or ''
    module = None if trait else module_of_type(crate, owner['type'])
    return f'{crate}::{module_of(file) if module is None else module}{owner["type"]}{trait}::{head[1]}'


class Bug:
    """A planted bug: its file, the text after it, and the function that it stands in."""

    def __init__(self, crate, path):
        self.crate, self.name = crate, os.path.basename(path)[:-len('.edit')]
        self.file, self.pairs = None, []
        with open(path) as lines:
            for line in lines:
                kind, _, text = line.rstrip('\n').partition(': ')
                if kind == 'file':
                    self.file = text
                elif kind == 'old':
                    self.pairs.append([text, None])
                elif kind == 'new':
                    self.pairs[-1][1] = text
        with open(f'{ROOT}/crates/{crate}/{self.file}') as source:
            text = source.read()
        self.fits = all(text.count(old) == 1 for old, _ in self.pairs)
        heads = [*HEAD_OF_FUNCTION.finditer(text, 0, text.index(self.pairs[0][0]))] if self.fits else []
        self.module = module_of(self.file).strip(':') or crate
        self.function = path_of_function(crate, self.file, text, heads[-1]) if heads else None

    def change(self, text):
        for old, new in self.pairs:
            text = text.replace(old, new)
        return text


def bugs_of(crate):
    folder = f'{ROOT}/crates/{crate}/planted'
    return [Bug(crate, f'{folder}/{name}') for name in sorted(os.listdir(folder)) if name.endswith('.edit')]


def crates_below():
    """Of each crate the ones that it stands on, lowest first."""
    below = {}
    with open(f'{ROOT}/crates.txt') as lines:
        for line in lines:
            head, colon, names = line.partition('#')[0].partition(':')
            if colon:
                below[head.split()[0]] = names.split()
    return below


def build_libraries(crates):
    """Proves the libraries that the crates stand on, where they don't stand in the repository."""
    below = crates_below()
    for name in below:
        folder = f'{ROOT}/crates/{name}'
        wanted = any(name in below[crate] for crate in crates)
        if wanted and not os.path.isdir(f'{folder}/out/rlib'):
            print(f'proves {name}', flush=True)
            subprocess.run(['rt', 'lib'], cwd=folder, stdout=subprocess.DEVNULL, check=True)


def link(source, target):
    """The file under another name where that can be had, else a copy: nothing writes into a file that stands."""
    try:
        os.link(source, target)
    except OSError:
        shutil.copy2(source, target)


def copy_of_repository(folder):
    """The crates with their libraries, and what says how they are built."""
    for name in ('crates.txt', 'HANDLES'):
        shutil.copy(f'{ROOT}/{name}', folder)
    shutil.copytree(f'{ROOT}/crates', f'{folder}/crates', copy_function=link, ignore=shutil.ignore_patterns('incremental', 'must-fail', 'planted'))


def write(path, text):
    os.remove(path)
    with open(path, 'w') as file:
        file.write(text)


def check(crate, names):
    """Whether the check of these functions and modules, or of all where there are none, passes; of each function whether it is proved; and a name that it doesn't know."""
    words = [word for name in names for word in ('--only', name)]
    run = subprocess.run(['rt', 'check', '--jobs', '1', *words], cwd=crate, stdout=subprocess.PIPE, stderr=subprocess.STDOUT, text=True)
    strange = STRANGE.search(run.stdout)
    return run.returncode == 0, {name: said.startswith('proved') for name, said in VERDICT.findall(run.stdout)}, strange and strange[1]


def with_bugs(folder, bugs, names):
    """What a check of these functions and modules says of the crate with these bugs in it."""
    crate = f'{folder}/crates/{bugs[0].crate}'
    right = {}
    for bug in bugs:
        path = f'{crate}/{bug.file}'
        with open(path) as source:
            text = source.read()
        right.setdefault(path, text)
        write(path, bug.change(text))
    try:
        return check(crate, names)
    finally:
        for path, text in right.items():
            write(path, text)
        shutil.rmtree(f'{crate}/out/incremental', ignore_errors=True)


def try_alone(folder, bug):
    """What comes of one bug: by its function, whose whole name may not be known, then by its module, then by its crate."""
    function = [[bug.function], [bug.function.rpartition('::')[2]]] if bug.function else []
    for names in (*function, [bug.module], []):
        passes, verdicts, _ = with_bugs(folder, [bug], names)
        if not all(verdicts.values()):
            return 'refused'
    return 'LET THROUGH' if passes else 'not read'


def try_group(folder, bugs):
    """What comes of bugs of one crate, of which each stands in a function of its own."""
    _, verdicts, strange = with_bugs(folder, bugs, [bug.function or bug.module for bug in bugs])
    known = [bug for bug in bugs if bug.function != strange]
    if 0 < len(known) < len(bugs):
        return try_group(folder, known) + [(bug, try_alone(folder, bug)) for bug in bugs if bug not in known]
    return [(bug, 'refused' if verdicts.get(bug.function) is False else try_alone(folder, bug)) for bug in bugs]


def groups_of(bugs):
    """The bugs by crate, so that no two of one group stand in one function; one that stands in none is alone."""
    groups = []
    for bug in bugs:
        for group in groups:
            if bug.function and group[0].function and group[0].crate == bug.crate and bug.function not in {other.function for other in group}:
                group.append(bug)
                break
        else:
            groups.append([bug])
    return sorted(groups, key=len, reverse=True)


def main():
    crates = sorted(name for name in os.listdir(f'{ROOT}/crates') if os.path.isdir(f'{ROOT}/crates/{name}/planted'))
    reader = argparse.ArgumentParser(description=__doc__.split('\n')[0])
    reader.add_argument('crates', nargs='*', metavar='CRATE', help='crates whose planted bugs are tried (all that have some)')
    reader.add_argument('--jobs', type=int, default=os.cpu_count(), help='how many checks are made beside each other (one for each processor)')
    options = reader.parse_args()
    for name in options.crates:
        if name not in crates:
            sys.exit(f'{name} has no planted bugs; these have some: {" ".join(crates)}')
    begun = time.time()
    bugs = [bug for name in options.crates or crates for bug in bugs_of(name)]
    said = [(bug, 'fits no text') for bug in bugs if not bug.fits]
    for bug, what in said:
        print(f'{what}: {bug.crate} {bug.name}', flush=True)
    groups = groups_of([bug for bug in bugs if bug.fits])
    build_libraries({bug.crate for bug in bugs})
    top, folders = tempfile.mkdtemp(prefix='planted_'), queue.Queue()
    try:
        for number in range(min(options.jobs, len(groups))):
            os.mkdir(f'{top}/{number}')
            copy_of_repository(f'{top}/{number}')
            folders.put(f'{top}/{number}')

        def one(group):
            folder, since = folders.get(), time.time()
            try:
                results = try_group(folder, group)
            finally:
                folders.put(folder)
            for bug, what in results:
                print(f'{what}: {bug.crate} {bug.name}', flush=True)
            print(f'{group[0].crate}: {len(group)} in {time.time() - since:.0f} s', flush=True)
            return results

        with concurrent.futures.ThreadPoolExecutor(options.jobs) as pool:
            for results in pool.map(one, groups):
                said += results
    finally:
        shutil.rmtree(top, ignore_errors=True)
    refused = sum(what == 'refused' for _, what in said)
    print(f'{refused} of {len(said)} planted bugs refused, in {time.time() - begun:.0f} s')
    sys.exit(0 if refused == len(said) else 1)


if __name__ == '__main__':
    main()

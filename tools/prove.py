"""Proves one crate while you write: python3 tools/prove.py CRATE [--build] [rattle's flags], anywhere in a clone.

The libraries below it are proved once for all clones of this machine: each is kept under a checksum of its sources and of those that it stands
on, in DIWAGBO_STORE or ~/.cache/diwagbo. A library that isn't there is built over what earlier checks of this clone kept, so a change far below
costs what changed and not all that stands on it. --build builds the crate's own library, too; --only PATH, --allow-holes, --fix-imports and
--jobs N are rattle's. It is no verdict: that is `rt ci`, which proves everything from nothing.
"""
import fcntl
import hashlib
import importlib.machinery
import importlib.util
import os
import pathlib
import shutil
import subprocess
import sys
import tempfile
from crates import CRATES, FOLDER, below, in_order, is_program

KIT = pathlib.Path(shutil.which('rt') or '/opt/rattle/bin/rt').resolve().parent.parent
STORE = pathlib.Path(os.environ.get('DIWAGBO_STORE') or pathlib.Path.home() / '.cache/diwagbo')
# the parts of a crate that a proof reads
PARTS = ['src', 'specs', 'proofs']


def known_to_rt(crate):
    """The crate as the toolchain's own script knows it, which tells the words of a check."""
    sys.dont_write_bytecode = True
    loader = importlib.machinery.SourceFileLoader('rtlib', str(KIT / 'bin/rtlib.py'))
    rtlib = importlib.util.module_from_spec(importlib.util.spec_from_loader('rtlib', loader))
    loader.exec_module(rtlib)
    found = rtlib.Crate(str(FOLDER / crate), str(FOLDER.parent), {})
    return found, rtlib.guarded()


def sums():
    """The checksum of each crate: of its sources, of its line in crates.txt, of those below it and of the toolchain."""
    found = {}
    for crate in in_order(set(CRATES)):
        own = hashlib.sha256((KIT / 'KIT-ID').read_bytes())
        own.update(' '.join([crate, *CRATES[crate]]).encode())
        for file in sorted(file for part in PARTS for file in (FOLDER / crate / part).rglob('*.*t')):
            own.update(('%s %d\n' % (file.relative_to(FOLDER), file.stat().st_size)).encode())
            own.update(file.read_bytes())
        own.update(' '.join(found[used] for used in CRATES[crate] if used in found).encode())
        found[crate] = own.hexdigest()[:20]
    return found


def place_of(crate): return STORE / crate / SUMS[crate]


def words(crate, flags):
    """The words of a check of the crate over the libraries of the store."""
    said = crate.words(flags, keeps=False)
    for library in crate.below():
        there = place_of(library.name)
        said = [word.replace(library.rlib, str(there / (library.name + '.rlib'))) for word in said]
        said = ['dependency=%s' % there if word == 'dependency=' + os.path.dirname(library.rlib) else word for word in said]
    return [*said, '--incremental', str(FOLDER / crate.name / 'out/incremental')]


def rattle(verb, name, flags, *more):
    """Runs rattle on the crate; what it says goes to standard output."""
    crate, guard = known_to_rt(name)
    os.makedirs(FOLDER / name / 'out', exist_ok=True)
    flags = flags if '--jobs' in flags else ['--jobs', '2', *flags]
    return subprocess.run([*guard, str(KIT / 'bin/rattle'), verb, *words(crate, flags), *more], cwd=FOLDER / name, stdin=subprocess.DEVNULL).returncode


def put(name):
    """Builds the crate's library and puts it into the store, unless it is there; two that want one at once build it once."""
    place = place_of(name)
    place.parent.mkdir(parents=True, exist_ok=True)
    with open(place.with_suffix('.lock'), 'w') as lock:
        fcntl.flock(lock, fcntl.LOCK_EX)
        if place.is_dir(): return
        with tempfile.TemporaryDirectory(dir=place.parent) as room:
            made = pathlib.Path(room) / 'made'
            made.mkdir()
            print('prove.py: %s' % name, flush=True)
            status = rattle('build', name, [], '-o', str(made / (name + '.rlib')))
            if status: sys.exit('prove.py: %s is not proved' % name)
            if sums()[name] != SUMS[name]: sys.exit('prove.py: %s changed meanwhile' % name)
            made.rename(place)


SUMS = sums()


def main(crate, *flags):
    if crate not in CRATES: sys.exit('prove.py: crates.txt has no crate %s' % crate)
    flags = list(flags)
    for library in in_order(below(crate)): put(library)
    if '--build' in flags and not is_program(crate): return put(crate)
    sys.exit(rattle('check', crate, [flag for flag in flags if flag != '--build']))


if __name__ == '__main__':
    if len(sys.argv) < 2: sys.exit(__doc__)
    main(*sys.argv[1:])

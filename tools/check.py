"""Says which written files are stale: python3 tools/check.py, by hand, before what changed is handed in. It proves nothing.

Looked at are the pages that scripts write, the files that tools/generate.py writes (the rows of tools/examples.py among them), the layout of
all that the gate reads, the usage line that tools/shake.py repeats, the size of the README, and the links and files that the pages name.
"""
import filecmp
import pathlib
import re
import shutil
import subprocess
import sys
import tempfile
import contracts
import map
import shake
from crates import CRATES, FOLDER, TOP

LARGEST = 6 << 10
PAGES = [TOP / 'README.md'] + sorted((TOP / 'docs').glob('*.md'))


def pages():
    if contracts.FILE.read_text() != contracts.text(): yield 'docs/CONTRACTS.md is stale: python3 tools/contracts.py'
    old = map.FILE.read_text()
    if old != map.whole(old): yield 'docs/ARCHITECTURE.md is stale: python3 tools/map.py'


def generated():
    """Writes the generated files anew in a copy, and compares."""
    with tempfile.TemporaryDirectory() as folder:
        copy = pathlib.Path(folder)
        shutil.copytree(FOLDER, copy / 'crates', ignore=shutil.ignore_patterns('out', 'must-fail'))
        shutil.copytree(TOP / 'tools', copy / 'tools', ignore=shutil.ignore_patterns('__pycache__'))
        shutil.copytree(TOP / 'docs', copy / 'docs')
        shutil.copy(TOP / 'crates.txt', copy)
        subprocess.run([sys.executable, 'tools/generate.py'], cwd=copy, check=True)
        for fresh in sorted(file for file in (copy / 'crates').rglob('*') if file.is_file()):
            path = fresh.relative_to(copy)
            if not (TOP / path).is_file() or not filecmp.cmp(TOP / path, fresh, shallow=False):
                yield '%s is stale: python3 tools/generate.py' % path


def layout():
    """Files that aren't in the toolchain's layout: the gate takes their crate as not proved."""
    files = sorted(str(file) for part in ('src', 'specs', 'proofs') for file in FOLDER.glob('*/%s/**/*.*t' % part) if file.suffix in ('.rt', '.antt'))
    said = subprocess.run(['rattle', 'fmt', '--check', *files], capture_output=True, text=True)
    if said.returncode: yield from [line for line in (said.stdout + said.stderr).splitlines() if line]


def usage():
    said = re.escape(shake.USAGE)
    if not any(re.search(said + r'\\n', file.read_text()) for file in FOLDER.glob('*/src/*.rt')):
        yield 'tools/shake.py repeats a usage line that no crate says: %s' % shake.USAGE


def size():
    bytes = (TOP / 'README.md').stat().st_size
    if bytes > LARGEST: yield 'README.md has %d bytes, and should have at most %d' % (bytes, LARGEST)


def names():
    """The links of pages, and the files of definitions that they name."""
    for page in PAGES:
        text = page.read_text()
        for link in re.findall(r'\]\(([^)#:]+)(?:#[^)]*)?\)', text):
            if not (page.parent / link).exists(): yield '%s links to %s, which is not there' % (page.relative_to(TOP), link)
        for path in re.findall(r'`(\w+/(?:specs|src|proofs)/[\w/]+)(?:\.antt|\.rt)?`', text):
            if not any((FOLDER / (path + end)).exists() for end in ('', '.antt', '.rt')): yield '%s names %s, which is not there' % (page.relative_to(TOP), path)


def main():
    if shutil.which('rt') is None:
        print('rt is not on the PATH, and without it generated files have no layout to compare', file=sys.stderr)
        return 70
    stale = [line for look in (pages, generated, layout, usage, size, names) for line in look()]
    print('\n'.join(stale or ['nothing is stale, of %d crates' % len(CRATES)]))
    return 1 if stale else 0


if __name__ == '__main__':
    sys.exit(main())

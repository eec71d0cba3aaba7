"""Says what the gate sums: python3 tools/paths.py. It proves nothing.

The toolchain sums the sources of a library and of those that it stands on along every path that leads down from it, twice for each library, on
one processor (docs/CONTRIBUTING.md, "Rules of form", the last). Behind the number of paths and the gigabytes of each library stands which of its
libraries adds most, and a library that a crate lists and no file of it names is told.
"""
import re
from crates import CRATES, FOLDER, in_order, used_by

PARTS = ['src', 'specs', 'proofs']
SHOWN = 12


def files_of(crate): return [file for part in PARTS for file in sorted((FOLDER / crate / part).rglob('*.*t'))]


def sums():
    """The paths down from each crate, itself one of them, and the bytes along them."""
    paths, sizes = {}, {}
    for crate in in_order(set(CRATES)):
        paths[crate] = 1 + sum(paths[used] for used in used_by(crate))
        sizes[crate] = sum(file.stat().st_size for file in files_of(crate)) + sum(sizes[used] for used in used_by(crate))
    return paths, sizes


def unnamed():
    """Each crate with a library of the repository that it lists and no file of it names."""
    for crate in CRATES:
        text = '\n'.join(file.read_text() for file in files_of(crate))
        for used in used_by(crate):
            if not re.search(r'\bRattle\.%s\.|\b%s::|\buse %s\b' % (used, used, used), text): yield crate, used


def main():
    paths, sizes = sums()
    libraries = {used for crate in CRATES for used in used_by(crate)}
    print('%.1f GB in all, of %d libraries' % (sum(sizes[one] for one in libraries) / 1e9, len(libraries)))
    for crate in sorted(libraries, key=lambda one: -sizes[one])[:SHOWN]:
        most = max(used_by(crate), key=lambda one: sizes[one], default=None)
        print('%-16s %6.2f GB %8d paths' % (crate, sizes[crate] / 1e9, paths[crate]) + ('  %.2f by %s' % (sizes[most] / 1e9, most) if most else ''))
    for crate, used in unnamed(): print('%s names nothing of %s' % (crate, used))


if __name__ == '__main__':
    main()

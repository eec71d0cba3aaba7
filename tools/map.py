"""Writes the tree and the table of docs/ARCHITECTURE.md from crates.txt and each crate's first lines: python3 tools/map.py"""
import collections
import functools
import re
import contracts
from crates import CRATES, FOLDER, TOP, below, first_line_of, in_order, is_program, own_uses, root_of, run_uses, used_by

FILE = TOP / 'docs/ARCHITECTURE.md'
BEGIN, END = '<!-- begin: written by tools/map.py -->', '<!-- end: written by tools/map.py -->'
MAIN = 'shake_cli'
SHOWN = 8


def doors(chosen, uses):
    """For each of these crates the one through which alone it is reached from the top, or none."""
    order = list(reversed(in_order(chosen)))
    users = {crate: [other for other in order if crate in uses(other)] for crate in order}
    above = {}
    for crate in order:
        ways = [[user] + above[user] for user in users[crate]]
        shared = [one for one in (ways[0] if ways else []) if all(one in way for way in ways)]
        above[crate] = shared
    return {crate: way[0] if way else None for crate, way in above.items()}


def tree_of(chosen, uses):
    """The crates as an indented list, each below the one through which alone it is reached."""
    door, order = doors(chosen, uses), list(reversed(in_order(chosen)))
    lines = []

    def add(crate, depth):
        lines.append(('  ' * depth + crate, first_line_of(crate)))
        for other in order:
            if door[other] == crate: add(other, depth + 1)

    for crate in order:
        if door[crate] is None: add(crate, 0)
    width = max(len(name) for name, _ in lines) + 2
    return '\n'.join(name.ljust(width) + said for name, said in lines)


@functools.lru_cache(None)
def cited():
    """How many crates speak in their contracts of each file of definitions of another crate."""
    found = collections.Counter()
    for crate in CRATES:
        text = ''.join(file.read_text() for file in sorted((FOLDER / crate / 'src').rglob('*.rt')))
        named = set(re.findall(r'\bRattle\.(\w+)\.specs\.([A-Z]\w*)', text))
        found.update((owner, file) for owner, file in named if owner != crate)
    return found


def definitions_of(crate):
    """The files of definitions that contracts of other crates speak of, the most cited first."""
    files = [(-count, file) for (owner, file), count in cited().items() if owner == crate]
    return ['`specs/%s`' % file for _, file in sorted(files)[:SHOWN]]


def known_for(crate):
    """The first of the names that a crate makes public, and its definitions that others speak of."""
    if is_program(crate): return 'a program'
    items, _ = contracts.public_of(root_of(crate))
    names = list(dict.fromkeys(item.name if not item.owner or item.owner[0].islower() else item.owner for item in items))
    shown = ', '.join('`%s`' % name for name in names[:SHOWN])
    shown += ' and %d more' % (len(names) - SHOWN) if len(names) > SHOWN else ''
    return '; '.join(part for part in (shown, ', '.join(definitions_of(crate))) if part)


def row_of(crate):
    uses = ', '.join('`%s`' % used for used in own_uses(crate)) or 'nothing'
    return '| [`%s`](CONTRACTS.md#%s) | %s | %s |' % (crate, crate, uses, known_for(crate))


def groups():
    """The crates in three groups: what the program's code is, what its proof stands on beside it, and all others."""
    runs = below(MAIN, run_uses) | {MAIN}
    carries = below(MAIN) - runs
    return runs, carries, set(CRATES) - runs - carries


def text():
    runs, carries, beside = groups()
    parts = [
        'Of %d crates the program runs %d, and its proof stands on %d more; %d stand beside it. A crate stands below the one through which alone those above reach it, and may know only what crates.txt names for it.' % (len(CRATES), len(runs), len(carries), len(beside)),
        'What the program runs:', '```\n%s\n```' % tree_of(runs, run_uses),
        'Definitions and laws that carry its proof:', '```\n%s\n```' % tree_of(carries, used_by),
        'Beside the program: tests and rows, measurements, and calls for other programs:', '```\n%s\n```' % tree_of(beside, used_by),
        '| Crate | Stands on | Is known for |\n|---|---|---|\n' + '\n'.join(row_of(crate) for crate in reversed(in_order(CRATES))),
    ]
    return '\n\n'.join(parts)


def whole(old):
    """The page with its written part anew."""
    return re.sub(re.escape(BEGIN) + '.*' + re.escape(END), lambda _: '%s\n\n%s\n\n%s' % (BEGIN, text(), END), old, flags=re.S)


if __name__ == '__main__':
    FILE.write_text(whole(FILE.read_text()))

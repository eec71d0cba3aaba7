#!/usr/bin/env python3
"""Says whether two builds of the program answer the same on random changes of the rows' inputs: the same status, output and line on standard error.

Run at the repository's top: python3 tools/compare.py OLD NEW [SEED [COUNT]]
OLD and NEW are programs as `./shake.sh build` leaves them. Of one seed (1, unless it is given) come the same changes each time, COUNT of them
(36,000). The rows themselves are compared first. It ends with 1 where an answer differs, and leaves the first such input in compare.json.
"""
import collections
import concurrent.futures
import copy
import json
import os
import pathlib
import random
import subprocess
import sys

TOP = pathlib.Path(__file__).resolve().parent.parent
ROWS = TOP / 'crates/test_shake/stdin'
WORDS = [['dce'], ['dce', '--tree-only']]
# What may stand in the place of a value that is no node.
SCALARS = [None, True, False, 0, 1, 2, 9007199254740991, 9007199254740992, -1, 0.5, '', 'a', 'b', 'eval', 'arguments', 'await', 'yield', 'let', 'undefined', 'use strict', 'default', 'const', 'var', '+', '&&', '===', 'typeof', 'void', 'delete']


def rows():
    """The programs that rows hold."""
    found = []
    for line in ROWS.read_bytes().split(b'\n'):
        at = line.find(b'{')
        if line.startswith(b'//') or at < 0: continue
        try: program = json.loads(line[at:])
        except ValueError: continue
        if program.get('type') == 'Program' and program not in found: found.append(program)
    return found


def places(value, key=None):
    """Each place below a value: what holds it, where, and the name of the member that it is or is listed by."""
    steps = value.items() if isinstance(value, dict) else enumerate(value) if isinstance(value, list) else []
    for step, inner in steps:
        name = step if isinstance(value, dict) else key
        yield value, step, name
        yield from places(inner, name)


def sort_of(name, value): return name, type(value).__name__


class Changes:
    """Random changes of the rows' programs, which a seed decides."""

    def __init__(self, programs, seed):
        self.programs, self.random = programs, random.Random(seed)
        # What stands in the rows by the names of the members that hold it.
        self.pool = collections.defaultdict(list)
        for program in programs:
            for holder, step, name in places(program): self.pool[sort_of(name, holder[step])].append(holder[step])
        self.sorts = sorted(self.pool)
        self.names = sorted({name for name, _ in self.sorts})

    def pick(self, found): return found[self.random.randrange(len(found))]

    def alike(self, name, value): return copy.deepcopy(self.pick(self.pool.get(sort_of(name, value)) or [value]))

    def change(self, program):
        """One change at a random place."""
        holder, step, name = self.pick(list(places(program)))
        how = self.random.random()
        if how < 0.6: holder[step] = self.alike(name, holder[step])
        elif how < 0.7: holder[step] = self.pick(SCALARS)
        elif how < 0.75: holder[step] = copy.deepcopy(self.pick(self.pool[self.pick(self.sorts)]))
        elif isinstance(holder, list): self.change_list(holder, step, name, how)
        elif how < 0.9: del holder[step]
        else: holder[self.pick(self.names)] = holder[step]

    def change_list(self, items, step, name, how):
        if how < 0.83: del items[step]
        elif how < 0.92: items.insert(self.random.randrange(len(items) + 1), self.alike(name, items[step]))
        else: self.random.shuffle(items)

    def text(self):
        """A program that was changed up to four times, as text that is now and then no JSON."""
        program, other = copy.deepcopy(self.pick(self.programs)), copy.deepcopy(self.pick(self.programs))
        bodies = [program.get('body'), other.get('body')]
        if self.random.random() < 0.3 and all(isinstance(body, list) for body in bodies): program['body'] = sum(bodies, [])
        for _ in range(self.random.randrange(1, 5)):
            if program: self.change(program)
        text = json.dumps(program, separators=(',', ':')).encode()
        if self.random.random() < 0.05:
            at = self.random.randrange(len(text))
            text = text[:at] + bytes([self.random.randrange(256)]) * self.random.randrange(3) + text[at + self.random.randrange(3):]
        return text


def answer(program, words, text):
    done = subprocess.run([program, *words], input=text, capture_output=True, timeout=120)
    return done.returncode, done.stdout, done.stderr


def differ(old, new, words, text):
    """The status where both answer the same, and None where they don't."""
    one, other = answer(old, words, text), answer(new, words, text)
    return one[0] if one == other else None


def main(old, new, seed='1', count='36000'):
    programs = rows()
    changes = Changes(programs, int(seed))
    inputs = [(words, json.dumps(program).encode()) for program in programs for words in WORDS]
    inputs += [(WORDS[number % 2], changes.text()) for number in range(int(count))]
    statuses = collections.Counter()
    with concurrent.futures.ThreadPoolExecutor(os.cpu_count()) as pool:
        for (words, text), status in zip(inputs, pool.map(lambda given: differ(os.path.abspath(old), os.path.abspath(new), *given), inputs)):
            statuses[status] += 1
            if status is None and statuses[None] == 1:
                pathlib.Path('compare.json').write_bytes(text)
                print('they differ by %s on compare.json' % ' '.join(words), flush=True)
    unlike = statuses.pop(None, 0)
    print('%d rows and %s changes of seed %s: %d differ; by status: %s' % (2 * len(programs), count, seed, unlike, ', '.join('%d %d times' % pair for pair in sorted(statuses.items()))))
    return 1 if unlike else 0


if __name__ == '__main__':
    if len(sys.argv) < 3: sys.exit(__doc__)
    sys.exit(main(*sys.argv[1:]))

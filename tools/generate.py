"""Writes the files that follow from the node table, and the rows of tests: python3 tools/generate.py [CRATE ..], at the top of the repository."""
import pathlib
import subprocess
import sys
import clones
import effects_rows
import entries
import equals
import examples
import expression_rows
import fits
import form_rows
import identifiers
import read_kinds
import run_table
import runs
import scope_examples
import shapes
import syntax
import tree_rows

MODULES = [syntax, run_table, read_kinds, entries, clones, equals, shapes, fits, examples, form_rows, tree_rows, effects_rows, expression_rows, scope_examples, runs, identifiers]
FILES = {path: text for module in MODULES for path, text in module.FILES.items()}

crates = pathlib.Path(__file__).resolve().parent.parent / 'crates'
for path, text in FILES.items():
    if sys.argv[1:] and path.split('/')[0] not in sys.argv[1:]: continue
    file = crates / path
    file.parent.mkdir(parents=True, exist_ok=True)
    file.write_bytes(text().encode('utf-8', 'surrogateescape'))
for crate in sys.argv[1:] or sorted({path.split('/')[0] for path in FILES}):
    subprocess.run(['rt', 'fmt'], cwd=crates / crate, check=True, stdout=subprocess.DEVNULL)

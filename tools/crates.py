"""What crates.txt and the first lines of each crate's root file say, for the scripts that write documents from them."""
import functools
import pathlib
import re

TOP = pathlib.Path(__file__).resolve().parent.parent
FOLDER = TOP / 'crates'


def listed():
    """The crates in the order of crates.txt, each with all that its line says it uses."""
    lines = [line.split('#')[0] for line in (TOP / 'crates.txt').read_text().splitlines()]
    said = [line.split(':') for line in lines if ':' in line]
    return {words.split()[0]: uses.split() for words, uses in said}


CRATES = listed()


def root_of(crate):
    """The root file of a crate: src/lib.rt, or src/main.rt of a program."""
    library = FOLDER / crate / 'src/lib.rt'
    return library if library.is_file() else FOLDER / crate / 'src/main.rt'


def is_program(crate): return root_of(crate).name == 'main.rt'


def head_of(crate):
    """The head comment of a crate's root file, line by line, as markdown."""
    lines = root_of(crate).read_text().splitlines()
    return [line[3:].strip() for line in lines if line.startswith('//!')]


def question_of(crate):
    """The first paragraph of the head comment: the question that the crate answers."""
    head = head_of(crate)
    end = head.index('') if '' in head else len(head)
    return ' '.join(head[:end])


def first_line_of(crate):
    """The first sentence of the head comment, without its last full stop."""
    said = re.match(r'(.*?[.?])(?=\s|$)', question_of(crate))
    return (said[1] if said else question_of(crate)).rstrip('.')


def used_by(crate):
    """The crates of the repository that a crate's line in crates.txt names."""
    return [used for used in CRATES[crate] if used in CRATES]


@functools.lru_cache(None)
def below(crate, uses=used_by):
    """All that a crate stands on."""
    found, ahead = set(), [crate]
    while ahead:
        for used in uses(ahead.pop()):
            if used not in found:
                found.add(used)
                ahead.append(used)
    return found


def own_uses(crate):
    """Of what crates.txt names for a crate those that no other of them stands on."""
    used = used_by(crate)
    return [one for one in used if not any(one in below(other) for other in used)]


@functools.lru_cache(None)
def run_uses(crate):
    """The crates that a crate's code uses, and not its contracts and proofs alone."""
    text = ''.join(file.read_text() for file in sorted((FOLDER / crate / 'src').rglob('*.rt')))
    code = re.sub(r'^\s*(?:pub )?ghost use [^;]*;', '', text, flags=re.M)
    code = re.sub(r'//.*', '', code)
    return [used for used in used_by(crate) if re.search(r'\b%s::' % used, code)]


def programs():
    return [crate for crate in CRATES if is_program(crate)]


def in_order(chosen):
    """These crates from the bottom up: each behind all that it stands on."""
    chosen, done = set(chosen), []

    def add(crate):
        for used in used_by(crate):
            if used in chosen and used not in done:
                add(used)
        if crate not in done:
            done.append(crate)

    for crate in CRATES:
        if crate in chosen:
            add(crate)
    return done

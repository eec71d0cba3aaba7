"""test_shake: the runs of `shake run`, as JSON.

The programs, hosts and traces of the table runs.txt, whose traces are told by hand, are written here as `shake run` reads and writes
them: a line of JSON for each event, and one for the ending (docs/MEANING.md). A program that is no core module has its least place in
the place of a trace. Left out are programs that no text gives, and hosts with values that JSON has no form for. Behind them stand
inputs with a field at fault, and programs before and after what passes leave of them.
"""
import json
import pathlib
import re
import nodes
import runs
from examples import N, I, L, ES, B, call, prog, var, fn

GLOBALS = [['f', dict(host=1, callable=True)], ['o', dict(host=2, callable=False)]] + [[x, dict(host=k, callable=True)] for k, x in enumerate(['g', 'a', 'b', 'use', 'q'], 3)]


def line(value): return json.dumps(value, sort_keys=True, separators=(',', ':'), ensure_ascii=False)


# ---- values, moves and traces as the table writes them

class NoForm(Exception):
    """JSON has no form for this value."""


WORDS = {'undefined': {'undefined': True}, 'null': None, 'true': True, 'false': False}


def value(word):
    if word in WORDS: return WORDS[word]
    if word[0] == "'": return word[1:-1]
    if word[0] == '#': return {'own': int(word[1:])}
    if re.fullmatch(r'[ho]\d+', word): return {'host': int(word[1:]), 'callable': word[0] == 'h'}
    if re.fullmatch(r'-?\d+', word): return int(word)
    raise NoForm(word)


def move(word):
    verb, *parts = word.split(':')
    if verb == 'fine': return {'answer': WORDS['undefined']}
    if verb == 'set': return {'setGlobal': parts[0], 'value': value(parts[1])}
    if verb == 'remove': return {'removeGlobal': parts[0]}
    if verb == 'import': return {'setImport': parts[:2], 'value': value(parts[2])}
    if verb == 'unset': return {'setImport': parts[:2]}
    if verb == 'call': return {'call': int(parts[0]), 'this': value(parts[1]), 'args': [value(p) for p in parts[2:]]}
    return {verb: value(parts[0])}


class Trace:
    """The text of a trace, read from its front."""
    def __init__(self, rest): self.rest = rest

    def takes(self, word):
        if not self.rest.startswith(word): return False
        self.rest = self.rest[len(word):]
        return True

    def match(self, pattern):
        found = re.match(pattern, self.rest)
        assert found, self.rest
        self.rest = self.rest[found.end():]
        return found[0]

    def shown(self):
        if not self.rest.startswith('#'): return value(self.match(r"'[^']*'|[\w-]+"))
        own = {'own': int(self.match(r'#\d+')[1:])}
        if not self.takes(':'): return own
        kind = self.match(r'\w+')
        return own | {'kind': kind, 'content': self.list('}', self.pair) if self.takes('{') else self.list(']', self.shown) if self.takes('[') else []}

    def pair(self):
        key = self.match(r'[^=]*')
        self.takes('=')
        return [key, self.shown()]

    def list(self, end, part):
        found = []
        while not self.takes(end):
            self.takes(' ')
            found.append(part())
        return found

    def export(self, into):
        if self.takes('*'): return into['stars'].append(self.match(r'[^ ]+'))
        name = {'name': self.match(r'[^=?< ]+')}
        if self.takes('='): name['value'] = self.shown()
        elif self.takes('<-'): name['source'], name['imported'] = self.match(r'[^ ]+').split('.')
        else: assert self.takes('?')
        into['names'].append(name)

    def exports(self):
        into = {'names': [], 'stars': []}
        if self.takes(' {'):
            while not self.takes(' }'):
                assert self.takes(' ')
                self.export(into)
        return into

    def parts(self, *names):
        for name in names:
            assert self.takes(' ')
            yield name, self.shown()

    def event(self):
        word = self.match(r'\w+')
        if word == 'load': return {'event': 'load', 'source': self.match(r' [^;{]*[^;{ ]')[1:]}
        if word == 'write': return {'event': 'write', 'name': self.match(r' [^ ]+')[1:], **dict(self.parts('value'))}
        if word == 'done': return {'event': 'done'}
        if word == 'failed': return {'event': 'done', **dict(self.parts('thrown'))}
        if word in ('call', 'new'):
            found = dict(self.parts(*(('callee', 'this') if word == 'call' else ('callee',))))
            assert self.takes(' (')
            return {'event': word, **found, 'args': self.list(')', self.shown)}
        return {'event': word, **dict(self.parts(*{'get': ('object', 'key'), 'set': ('object', 'key', 'value'), 'in': ('left', 'right'), 'instanceof': ('left', 'right')}.get(word, ('value',))))}

    def lines(self):
        while True:
            for words, ending in (('ended', 'ended'), ('stopped by the host', 'host stopped'), ('out of entries', 'out'), ('uncovered', 'uncovered')):
                if self.takes(words):
                    yield line({'ending': ending, **({'exports': self.exports()} if ending == 'ended' else {})})
                    assert not self.rest, self.rest
                    return
            event = self.event()
            yield line(event | {'exports': self.exports()})
            assert self.takes('; '), self.rest


def lines_of(trace): return ''.join('%s\n' % x for x in Trace(trace).lines())


# ---- the first node that is not of the core

FIELDS = {}
for row in nodes.ROWS.replace('FUNCTION', nodes.FUNCTION).replace('PATTERN_PROPERTY', nodes.PATTERN_PROPERTY).strip().splitlines():
    name, type, kind, weight, core, *fields = [part.strip() for part in row.split('|')]
    if type in FIELDS: continue
    FIELDS[type] = (core, [field.split()[:2] for field in fields[0].split(';') if field.strip()])
CORE_OPERATORS = {'UnaryExpression': '! - + typeof void'.split(), 'AssignmentExpression': '= += -= *= /= %= ||= &&= ??='.split(),
                  'BinaryExpression': '== != === !== < <= > >= + - * / % in instanceof'.split()}


def is_core(node):
    type = node['type']
    if type in CORE_OPERATORS: return node['operator'] in CORE_OPERATORS[type]
    if type in ('CallExpression', 'MemberExpression'): return not node.get('optional')
    if type == 'Property': return node['kind'] == 'init' and not node['computed'] and node['key'].get('name', node['key'].get('value')) != '__proto__'
    if type == 'Literal': return 'regex' not in node
    return FIELDS[type][0] != 'no' and type not in ('ArrayPattern', 'ObjectPattern', 'AssignmentPattern', 'RestElement')


def below(node):
    """The nodes below a node, in the order of places; a hole is a node, and a key that is not computed is none."""
    for field, sort in FIELDS[node['type']][1]:
        child = node.get(field)
        if sort in ('child', 'maybe') and child is not None: yield child
        if sort in ('each', 'each_or_hole', 'a_body'): yield from child
        if sort == 'a_key' and node.get('computed'): yield child


def nodes_of(node):
    yield node
    if node is not None:
        for child in below(node): yield from nodes_of(child)


def outside(tree):
    if tree['sourceType'] != 'module': return 0
    return next((place for place, node in enumerate(nodes_of(tree)) if node is None or not is_core(node)), None)


# ---- rows

def asked(program, script, n): return line({'program': program, 'script': script, 'n': n})


# the programs of the table that break a rule of form: `with` in strict code, and jumps that have nowhere to go
ILL_FORMED = {'with (o) f();': 10, 'return;': 6, 'break;': 3}


def of_table(row):
    source, tree, host, trace = row
    bound, *moves = host.split(' ')
    program = runs.estree(runs.parsed(tree))
    place = outside(program)
    if source in ILL_FORMED: return 'words shake,run,:', asked(program, {'globals': GLOBALS, 'moves': []}, int(bound)), '7\nshake: ill formed: rule %d at 1\n' % ILL_FORMED[source]
    said = '0\n' + lines_of(trace) if place is None else '16\nshake: not core: place %d\n' % place
    return 'words shake,run,:', asked(program, {'globals': GLOBALS, 'moves': [move(m) for m in moves]}, int(bound)), said


def table():
    for row in runs.rows():
        if isinstance(row, str) or row[1][0] != '(': continue
        try: yield of_table(row)
        except NoForm: pass


f, g, a, b, x = map(I, 'fgabx')
F = ['f', dict(host=1, callable=True)]
CALL = prog([ES(call(f))])
EXPORTS = {'names': [], 'stars': []}
ENDED = line({'ending': 'ended', 'exports': EXPORTS}) + '\n'
CALLED = ('{"args":[],"callee":{"callable":true,"host":1},"event":"call","exports":{"names":[],"stars":[]},"this":{"undefined":true}}\n'
          '{"event":"done","exports":{"names":[],"stars":[]}}\n{"ending":"ended","exports":{"names":[],"stars":[]}}\n')
LACKED = ('{"event":"done","exports":{"names":[],"stars":[]},"thrown":{"content":[],"kind":"ReferenceError","own":0}}\n'
          '{"ending":"ended","exports":{"names":[],"stars":[]}}\n')
SCRIPT = {'globals': [F], 'moves': [{'answer': None}]}


def bad(field, **changed):
    """An input that is right but for what is changed; a field that is None is left out."""
    script = {k: v for k, v in dict(SCRIPT, **changed).items() if k in ('globals', 'moves') and v is not ...}
    input = dict(program=CALL, script=script, n=10) | {k: v for k, v in changed.items() if k not in ('globals', 'moves')}
    return 'words shake,run,:', line({k: v for k, v in input.items() if v is not ...}), '15\nshake: bad script: %s\n' % field


def values(v): return [{'answer': v}]


BAD = [
    bad('program', program=...), bad('script', script=...), bad('script', script=[]), bad('globals', globals=...), bad('globals', globals={}), bad('globals', globals=[['f']]),
    bad('globals', globals=[[1, 1]]), bad('globals', globals=[F, F]), bad('globals', globals=[['undefined', 1]]), bad('globals', globals=[['f', {'own': 0}]]), bad('globals', globals=[['f', 1, 2]]),
    bad('moves', moves=...), bad('moves', moves=[1]), bad('moves', moves=[{}]), bad('moves', moves=[{'answer': 1, 'throw': 1}]), bad('moves', moves=[{'setGlobal': 'undefined', 'value': 1}]),
    bad('moves', moves=[{'setGlobal': 'x'}]), bad('moves', moves=[{'removeGlobal': 1}]), bad('moves', moves=[{'setImport': ['m'], 'value': 1}]), bad('moves', moves=[{'call': -1, 'this': 1, 'args': []}]),
    bad('moves', moves=[{'call': 0, 'this': 1}]), bad('moves', moves=[{'call': 0, 'args': [], 'this': 1, 'more': 1}]),
    bad('moves', moves=values([])), bad('moves', moves=values({})), bad('moves', moves=values({'undefined': False})), bad('moves', moves=values({'host': 1})), bad('moves', moves=values({'host': 1, 'callable': 1})),
    bad('moves', moves=values({'host': 2 ** 53, 'callable': True})), bad('moves', moves=values({'own': 0, 'kind': 'function'})), bad('moves', moves=values(1.5)), bad('moves', moves=values(2 ** 53)), bad('moves', moves=values(-2 ** 53)),
    bad('n', n=...), bad('n', n=-1), bad('n', n=2 ** 20 + 1), bad('n', n='10'),
]
# the first at fault: a tree before a script, what is no core module before a script, a script before the bound
FIRST = [
    ('words shake,run,:', 'no', '4\nshake: not JSON\n'), ('words shake,run,:', '1', '15\nshake: bad script: program\n'),
    ('words shake,run,:', '{"program":{"type":"None"}}', '5\nshake: unknown node None\n'),
    ('words shake,run,:', line({'program': prog([N('ReturnStatement', argument=None)])}), '7\nshake: ill formed: rule 6 at 1\n'),
    ('words shake,run,:', line({'program': prog([ES(call(f)), N('WithStatement', object=f, body=B())], 'script')}), '16\nshake: not core: place 0\n'),
    ('words shake,run,:', line({'program': prog([ES(call(f)), ES(N('ChainExpression', expression=call(f, optional=True)))])}), '16\nshake: not core: place 5\n'),
    ('words shake,run,:', line({'program': CALL, 'script': {'globals': 1}}), '15\nshake: bad script: globals\n'),
    ('unread shake,run,--tree-only,:', '', '1\nshake: usage: shake dce [--tree-only], or shake run\n'),
]


def both(before, after, said, moves, globals=GLOBALS):
    """A program and what passes leave of it, over one script: one output."""
    script = {'globals': globals, 'moves': moves}
    return [('words shake,run,:', asked(p, script, 10), '0\n' + lines_of(said)) for p in (prog(before), prog(after))]


FINE = {'answer': {'undefined': True}}
TRY = N('TryStatement', block=B(), handler=N('CatchClause', param=I('e'), body=B(ES(call(f)))), finalizer=B(ES(call(g))))
PURE = fn('FunctionDeclaration', I('p'), [], B())
LET = var('let', (x, L(1)))
IF = N('IfStatement', test=x, consequent=ES(call(a)), alternate=ES(call(b)))
KEPT = (both([TRY], [B(ES(call(g)))], 'call h3 undefined (); done; ended', [FINE])
        + both([PURE, ES(call(I('use'), call(I('p'), call(I('q')))))], [ES(call(I('q'))), ES(call(I('use'), N('UnaryExpression', operator='void', prefix=True, argument=L(0))))],
               'call h7 undefined (); call h6 undefined (undefined); done; ended', [FINE, FINE])
        + both([LET, IF], [ES(call(a))], 'call h4 undefined (); done; ended', [FINE]))


ARROW = fn('ArrowFunctionExpression', None, [], L(3), True)
IMPORT = N('ImportDeclaration', source=L('m'), specifiers=[N('ImportSpecifier', imported=a, local=a)])
EXPORT = N('ExportNamedDeclaration', declaration=var('let', (b, a)), specifiers=[], source=None)
G = ['g', dict(host=2, callable=True)]


def documented():
    """The three examples of docs/MEANING.md, as it has them."""
    page = pathlib.Path(__file__).parent.parent.joinpath('docs', 'MEANING.md').read_text()
    texts = re.findall(r'```json\n(.*?)```', page, re.S)
    inputs = [asked(prog([ES(call(f, call(g)))]), {'globals': [F, G], 'moves': [{'answer': 7}, {'answer': {'undefined': True}}]}, 0),
              asked(prog([ES(call(f, ARROW))]), {'globals': [F], 'moves': [{'call': 0, 'this': None, 'args': []}, {'answer': None}]}, 1),
              asked(prog([IMPORT, EXPORT]), {'globals': [], 'moves': [{'setImport': ['m', 'a'], 'value': 5}, {'answer': None}]}, 0)]
    return [('words shake,run,:', input, '0\n' + text) for input, text in zip(inputs, texts, strict=True)]


def groups():
    yield 'shake run: the examples of docs/MEANING.md', documented()
    yield 'shake run: a call that the host answers, and a name that it lacks', [
        ('words shake,run,:', asked(CALL, SCRIPT, 10), '0\n' + CALLED), ('words shake,run,:', asked(CALL, {'globals': [], 'moves': []}, 10), '0\n' + LACKED)]
    yield 'shake run: the programs of the table of runs, with the traces that are told there', list(table())
    yield 'shake run: programs before and after what passes leave of them', KEPT
    yield 'shake run: a field at fault', BAD
    yield 'shake run: the first fault', FIRST
    yield 'shake run: faults of the outside', [('words shake,run,:', asked(prog([]), {'globals': [], 'moves': []}, 2 ** 20), '0\n' + line({'event': 'done', 'exports': EXPORTS}) + '\n' + ENDED)]

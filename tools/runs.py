"""test_runs: programs with hosts, and the traces that ECMA-262 and docs/MEANING.md give them, from the table in runs.txt.

A line behind `#` says what the rows after it show. A row is four lines: the program; its tree; how many entries there may be, and then
what the host does; and the events and the ending, written by hand. In a tree `(kind child ..)` is a node, `@x` a name that is declared,
`>x` one that is assigned to, and `-` a field that isn't there; a tree that no text gives stands in words, which the program knows. The
host answers (`fine` with undefined), throws, calls an own object with a receiver and arguments, sets and removes globals, and sets what a
module exports. Of values `h1` is an object of the host that can be called, `o2` one that can't, `number3`, `bigint4`, `symbol5`
and `string6` are other primitive values (`false-number3` one that is false in a test), and `#0` is the first own object that the host saw; at
first it stands with what it is. Behind an event stand the exports of that moment, where there are some.
"""
import pathlib
import re
from examples import N, I, L, tmpl, text

ROWS = pathlib.Path(__file__).with_name('runs.txt').read_text()


def parsed(tree):
    """A node is the list of its kind's word and its children, a leaf its word."""
    open_nodes = [[]]
    for token in re.findall(r"\(|\)|'[^']*'|[^\s()']+", tree):
        if token == '(': open_nodes.append([])
        elif token == ')': node = open_nodes.pop(); open_nodes[-1].append(node)
        else: open_nodes[-1].append(token)
    [[node]] = open_nodes
    return node


def leaf(word):
    if word == '-': return None
    if word[0] == "'": return L(word[1:-1])
    if word in ('null', 'true', 'false'): return L({'null': None, 'true': True, 'false': False}[word])
    return L(int(word)) if word.isdigit() else I(word.lstrip('@>'))


def function(kind):
    def node(id, takes, does): return N(kind, id=id, params=takes, body=does, generator=False, expression=does['type'] != 'BlockStatement', **{'async': False})
    return node


def key(word): return lambda key, value: N('Property', kind='init', computed=False, method=False, shorthand=False, key=word, value=value)
def of_kind(node, **fields): return lambda *children: node(*children) | fields
def alone(type, *fields): return lambda *children: N(type, **dict(zip(fields, children, strict=True)))
def listed(type, field, *before): return lambda *children: N(type, **dict(zip(before, children)), **{field: list(children[len(before):])})
def program(kind): return lambda *body: N('Program', sourceType=kind, body=list(body))
def declaration(kind): return lambda *items: N('VariableDeclaration', kind=kind, declarations=list(items))
def class_of(type): return alone(type, 'id', 'superClass', 'body')
def call(optional): return lambda callee, *arguments: N('CallExpression', callee=callee, arguments=list(arguments), optional=optional)
def member(computed, optional=False): return lambda object, property: N('MemberExpression', object=object, property=property, computed=computed, optional=optional)
def meta(of, word): return lambda: N('MetaProperty', meta=I(of), property=I(word))
def export(source=None): return lambda declaration=None, *specifiers: N('ExportNamedDeclaration', declaration=declaration, specifiers=list(specifiers), source=source)
def jump(type): return lambda label=None: lambda: N(type, label=label and I(label))


# by the words of kinds, of what children a node is made
KINDS = {
    'module': program('module'), 'script': program('script'),
    'directive': lambda literal: N('ExpressionStatement', expression=literal, directive=literal['value']),
    'do': alone('ExpressionStatement', 'expression'), 'block': listed('BlockStatement', 'body'),
    'empty': alone('EmptyStatement'), 'debugger': alone('DebuggerStatement'),
    'return': alone('ReturnStatement', 'argument'), 'throw': alone('ThrowStatement', 'argument'),
    'if': alone('IfStatement', 'test', 'consequent', 'alternate'),
    'switch': listed('SwitchStatement', 'cases', 'discriminant'), 'case': listed('SwitchCase', 'consequent', 'test'),
    'try': alone('TryStatement', 'block', 'handler', 'finalizer'), 'catch': alone('CatchClause', 'param', 'body'),
    'while': alone('WhileStatement', 'test', 'body'), 'do-while': alone('DoWhileStatement', 'body', 'test'),
    'for': alone('ForStatement', 'init', 'test', 'update', 'body'),
    'for-in': alone('ForInStatement', 'left', 'right', 'body'), 'for-of': of_kind(alone('ForOfStatement', 'left', 'right', 'body'), **{'await': False}),
    'with': alone('WithStatement', 'object', 'body'),
    'var': declaration('var'), 'let': declaration('let'), 'const': declaration('const'), 'is': alone('VariableDeclarator', 'id', 'init'),
    'takes': lambda *names: list(names), 'does': listed('BlockStatement', 'body'),
    'function': function('FunctionDeclaration'), 'fn': function('FunctionExpression'), 'arrow': function('ArrowFunctionExpression'),
    'class': class_of('ClassDeclaration'), 'class-expression': class_of('ClassExpression'), 'class-body': listed('ClassBody', 'body'),
    'binding-array': listed('ArrayPattern', 'elements'), 'binding-object': listed('ObjectPattern', 'properties'), 'target-array': listed('ArrayPattern', 'elements'),
    'default': alone('AssignmentPattern', 'left', 'right'), 'rest': alone('RestElement', 'argument'),
    'import-default': alone('ImportDefaultSpecifier', 'local'), 'import-all': alone('ImportNamespaceSpecifier', 'local'),
    'export': export(), 'export-default': alone('ExportDefaultDeclaration', 'declaration'),
    'this': alone('ThisExpression'), 'super': alone('Super'), 'new.target': meta('new', 'target'), 'import.meta': meta('import', 'meta'),
    'array': listed('ArrayExpression', 'elements'), 'hole': lambda: None, 'object': listed('ObjectExpression', 'properties'),
    'spread': alone('SpreadElement', 'argument'), 'paren': alone('ParenthesizedExpression', 'expression'), 'comma': listed('SequenceExpression', 'expressions'),
    '?': alone('ConditionalExpression', 'test', 'consequent', 'alternate'),
    'call': call(False), 'call?.': call(True), 'chain': alone('ChainExpression', 'expression'),
    'new': listed('NewExpression', 'arguments', 'callee'), 'at': member(True),
    'quasis': lambda *texts: list(texts), 'expressions': lambda *nodes: list(nodes), 'template': tmpl, 'tagged': alone('TaggedTemplateExpression', 'tag', 'quasi'),
    'import-call': alone('ImportExpression', 'source'),
    'key-below': lambda key, value: N('Property', kind='init', computed=True, method=False, shorthand=False, key=key, value=value),
}

# by the words of kinds that say more, what that more makes of children
SAYING = {
    'unary': lambda o: of_kind(alone('UnaryExpression', 'argument'), operator=o, prefix=True),
    'prefix': lambda o: of_kind(alone('UpdateExpression', 'argument'), operator=o, prefix=True),
    'postfix': lambda o: of_kind(alone('UpdateExpression', 'argument'), operator=o, prefix=False),
    'binary': lambda o: of_kind(alone('BinaryExpression', 'left', 'right'), operator=o),
    'logical': lambda o: of_kind(alone('LogicalExpression', 'left', 'right'), operator=o),
    'assign': lambda o: of_kind(alone('AssignmentExpression', 'left', 'right'), operator=o),
    'key': lambda k: key(I(k)), 'key-text': lambda k: key(L(k)), 'key-number': lambda k: key(L(int(k))),
    'method': lambda k: of_kind(key(I(k)), method=True), 'getter': lambda k: of_kind(key(I(k)), kind='get'), 'binding': lambda k: key(I(k)),
    'get': lambda k: lambda object, _: member(False)(object, I(k)), 'get?.': lambda k: lambda object, _: member(False, True)(object, I(k)),
    'label': lambda l: of_kind(alone('LabeledStatement', 'body'), label=I(l)), 'break': jump('BreakStatement'), 'continue': jump('ContinueStatement'),
    'regexp': lambda p: lambda: N('Literal', value={}, regex=dict(pattern=p, flags='')), 'chars': lambda t='': lambda: t,
    'import': lambda m: of_kind(listed('ImportDeclaration', 'specifiers'), source=L(m)),
    'name': lambda n: of_kind(alone('ImportSpecifier', 'local'), imported=I(n)), 'as': lambda n: of_kind(alone('ExportSpecifier', 'local'), exported=I(n)),
    'name-as': lambda n, m: lambda: N('ExportSpecifier', local=I(n), exported=I(m)), 'export-from': lambda m: export(L(m)),
    'export-all': lambda m: lambda: N('ExportAllDeclaration', exported=None, source=L(m)), 'export-all-as': lambda m, n: lambda: N('ExportAllDeclaration', exported=I(n), source=L(m)),
}


def made(word):
    kind, *says = word.split(':')
    return SAYING[kind](*says) if kind in SAYING else KINDS[kind]


def estree(node):
    """The tree that ESTree has for a parsed one."""
    return leaf(node) if isinstance(node, str) else made(node[0])(*map(estree, node[1:]))


def json_of(tree): return text(estree(parsed(tree))) if tree[0] == '(' else tree


def rows():
    """The lines that are printed as they are, and the rows: program, tree, host and trace."""
    for block in ROWS.strip().split('\n\n'):
        yield '// %s\n' % block[2:] if block[0] == '#' else block.split('\n')


def given(row):
    source, tree, host, _ = row
    return '// %s\n%s\t%s\n' % (source, host, json_of(tree))


def wanted(row):
    source, _, _, trace = row
    return '// %s\n%s\n' % (source, trace)


def written(part): return lambda: ''.join(row if isinstance(row, str) else part(row) for row in rows())


FILES = {'test_runs/stdin': written(given), 'test_runs/stdout': written(wanted)}

"""test_scope: programs with their tables, sites and marks, told by hand, and tables of edited sites that match or don't.

What a table says is told by ECMA-262 and by docs/DEFINITIONS.md: where a name is declared, which declaration a name means,
and how it is used. What follows from what is told, as which references a symbol has, is worked out here.
"""
from examples import B, DEBUGGER, EMPTY, ES, F_, I, L, N, STRICT, asg, do, exports, fn, mem, prog, prop, text, un, var, a, b, c, f, x

# What a scope is, how a name is declared, and how it is used: the bits of `scope_table`.
STRICTLY, TOP, FUNCTION, ARROW, STATIC, CONSTRUCTOR, BLOCK, CATCH, WITH, EVAL = (1 << i for i in range(10))
VAR, LET, CONSTANT, CLASS, CAUGHT, FUNCTION_NAME, IMPORT = (1 << i for i in range(7))
CONST = LET + CONSTANT
READ, WRITE, MEMBER = 1, 2, 4
MODULE = TOP + STRICTLY


def of(number): return '-' if number is None else str(number)
def words(items): return ''.join(' %s' % item for item in items)
def truth(value): return 'true' if value else 'false'


class Declared:
    """One declaration of a symbol."""
    def __init__(self, flags, pure=False, at=(0, 0)): self.flags, self.pure, self.at = flags, pure, at

    def told(self): return ', declaration %d pure %s at %d %d' % (self.flags, truth(self.pure), *self.at)


def declared(given): return given if isinstance(given, Declared) else Declared(given)


class Table:
    """Scopes are (parent, flags, names), names a dictionary of symbols; symbols (name, scope, declarations); references (name, scope,
    symbol, flags), and the symbol is None where nothing declares the name."""
    def __init__(self, scopes, symbols, references):
        self.scopes, self.references = scopes, references
        self.symbols = [(name, scope, [declared(d) for d in declarations]) for name, scope, *declarations in symbols]

    def within(self, scope): return [] if scope is None else [scope] + self.within(self.scopes[scope][0])

    def found(self, scope, name): return next((self.scopes[s][2][name] for s in self.within(scope) if name in self.scopes[s][2]), None)

    def uses(self, symbol): return [i for i, r in enumerate(self.references) if r[2] == symbol]

    def told_scope(self, number):
        parent, flags, names = self.scopes[number]
        return 'scope %d: flags %d, within%s%s, names%s, finds%s\n' % (
            number, flags, words(self.within(number)), '' if parent is None else ', parent %d' % parent,
            words('%s %d' % item for item in names.items()), words(of(self.found(number, s[0])) for s in self.symbols))

    def is_pure(self, number):
        declarations = self.symbols[number][2]
        return len(declarations) == 1 and declarations[0].pure

    def told_symbol(self, number):
        name, scope, declarations = self.symbols[number]
        uses = self.uses(number)
        flags = 0
        for d in declarations: flags |= d.flags
        return 'symbol %d %s: scope %d, flags %d%s, pure %s, unused %s, mutated %s, references%s, of flags%s\n' % (
            number, name, scope, flags, ''.join(d.told() for d in declarations) if len(declarations) > 1 else '',
            truth(self.is_pure(number)), truth(not uses), truth(any(self.references[r][3] & WRITE for r in uses)),
            words(uses), words(self.references[r][3] for r in uses))

    def told_reference(self, number):
        _, scope, symbol, flags = self.references[number]
        return 'reference %d: scope %d, flags %d, symbol %s\n' % (number, scope, flags, of(symbol))

    def told_unresolved(self):
        names = {}
        for i, (name, _, symbol, _) in enumerate(self.references):
            if symbol is None: names.setdefault(name, []).append(i)
        return ''.join('unresolved %s:%s\n' % (name, words(uses)) for name, uses in names.items())

    def told(self):
        numbers = range(len(self.symbols))
        return '%s%s%s%snames%s, pure%s, resolved %d, root 0 of flags %d\n' % (
            ''.join(map(self.told_scope, range(len(self.scopes)))), ''.join(map(self.told_symbol, numbers)),
            ''.join(map(self.told_reference, range(len(self.references)))), self.told_unresolved(),
            words(s[0] for s in self.symbols), words(n for n in numbers if self.is_pure(n)),
            sum(r[2] is not None for r in self.references), self.scopes[0][1])


# Rows: what is shown, the question, the tree, and what is answered.
rows = []


def T(shown, body, scopes, symbols, references, marks, kind='module'):
    """A program with its table and its marks: the names in order of places with their marks, and `scope N`."""
    table = Table(scopes, symbols, references)
    rows.append((shown, 'table', prog(body, kind), '%smarks, %s\nmatches true\n' % (table.told(), marks)))


def site_lines(scopes, declarations, uses):
    return ''.join('scope: mark %s, parent %s, flags %d\n' % (of(m), of(p), flags) for m, p, flags in scopes) \
        + ''.join('declared %s: mark %s, in %s, flags %d, pure %s, at %d %d\n' % (n, of(m), layer, d.flags, truth(d.pure), *d.at)
                  for n, m, layer, d in ((n, m, layer, declared(d)) for n, m, layer, d in declarations)) \
        + ''.join('used %s: mark %s, in %d, flags %d, layers%s\n' % (n, of(m), s, flags, words(layers)) for n, m, s, flags, layers in uses)


def sites(shown, body, scopes, declarations, uses, kind='module'):
    """Scopes are (mark, parent, flags), declarations (name, mark, layer, flags) and uses (name, mark, scope, flags, layers)."""
    rows.append((shown, 'sites', prog(body, kind), site_lines(scopes, declarations, uses)))


def marks(shown, symbols, body, told, scopes, declarations, uses, kind='module'):
    rows.append((shown, 'marks%s' % words(symbols), prog(body, kind), 'marks, %s\n%s' % (told, site_lines(scopes, declarations, uses))))


def edit(shown, edits, program, matches): rows.append((shown, 'edit %s' % edits, program, 'matches %s\n' % truth(matches)))


def lets(kind, *names): return var(kind, *((I(n), None) for n in names))
def function(name, params, *body, **more): return dict(fn('FunctionExpression', name and I(name), params, B(*body)), **more)
def pure(node): return dict(node, noSideEffects=True)
def at(node, start, end): return dict(node, start=start, end=end)
def defaults(left, right): return N('AssignmentPattern', left=left, right=right)
def klass(kind, name, *members, base=None): return N(kind, id=name and I(name), superClass=base, body=N('ClassBody', body=list(members)))
def method(name, value, kind='method'): return N('MethodDefinition', kind=kind, computed=False, static=False, key=I(name), value=value)


# ---- whole tables

T('{}: a block is a scope', [B()], [(None, MODULE, {}), (0, BLOCK + STRICTLY, {})], [], [], 'scope 0, scope 1')
T('let a; a declared name is a symbol', [lets('let', 'a')], [(None, MODULE, {'a': 0})], [('a', 0, LET)], [], 'scope 0, declared a 0')
T('{ a; } a use of a name that nothing declares', [B(ES(a))], [(None, MODULE, {}), (0, BLOCK + STRICTLY, {})], [], [('a', 1, None, READ)],
  'scope 0, scope 1, used a 0')
T("(function a(b = a) { var a = c; var b = d; b = c; }); /*#__NO_SIDE_EFFECTS__*/ function f() {} f; an expression's own name is hidden by its body's",
  [ES(function('a', [defaults(b, a)], var('var', (a, c)), var('var', (b, I('d'))), ES(asg('=', b, c)))), pure(F_('f', [])), ES(f)],
  [(None, MODULE, {'f': 3}), (0, FUNCTION + STRICTLY, {'b': 1, 'a': 2}), (0, FUNCTION + STRICTLY, {})],
  [('a', 1, FUNCTION_NAME), ('b', 1, VAR, VAR), ('a', 1, VAR), ('f', 0, Declared(FUNCTION_NAME, True))],
  [('a', 1, 0, READ), ('c', 1, None, READ), ('d', 1, None, READ), ('b', 1, 1, WRITE), ('c', 1, None, READ), ('f', 0, 3, READ)],
  'scope 0, scope 1, declared a 0, declared b 1, used a 0, declared a 2, used c 1, declared b 1, used d 2, used b 3, used c 4, scope 2, declared f 3, used f 5')
T('(function (b) { function b() {} b(); }); a symbol has the bits of all its declarations, which keep their places',
  [ES(function(None, [at(b, 10, 11)], pure(dict(F_('b', []), id=at(b, 24, 25))), do('b')))],
  [(None, MODULE, {}), (0, FUNCTION + STRICTLY, {'b': 0}), (1, FUNCTION + STRICTLY, {})],
  [('b', 1, Declared(VAR, at=(10, 11)), Declared(FUNCTION_NAME, True, (24, 25)))], [('b', 1, 0, READ)],
  'scope 0, scope 1, declared b 0, scope 2, declared b 0, used b 0')
T("let a, b; a += b; a.c = a.b; [b] = a; what is assigned, and of what a member is", [lets('let', 'a', 'b'), ES(asg('+=', a, b)), ES(asg('=', mem(a, c), mem(a, b))),
  ES(asg('=', N('ArrayPattern', elements=[b]), a))],
  [(None, MODULE, {'a': 0, 'b': 1})], [('a', 0, LET), ('b', 0, LET)],
  [('a', 0, 0, READ + WRITE), ('b', 0, 1, READ), ('a', 0, 0, READ + MEMBER), ('a', 0, 0, READ), ('b', 0, 1, WRITE), ('a', 0, 0, READ)],
  'scope 0, declared a 0, declared b 1, used a 0, used b 1, used a 2, used a 3, used b 4, used a 5')
T('{ function a() {} } a; in a script', [B(F_('a', [])), ES(a)],
  [(None, TOP, {}), (0, BLOCK, {'a': 0}), (1, FUNCTION, {})], [('a', 1, FUNCTION_NAME)], [('a', 0, None, READ)],
  'scope 0, scope 1, scope 2, declared a 0, used a 0', 'script')
T("'use strict'; { var a; const b = a; } b; in a script", [STRICT, B(lets('var', 'a'), var('const', (b, a))), ES(b)],
  [(None, MODULE, {'a': 0}), (0, BLOCK + STRICTLY, {'b': 1})], [('a', 0, VAR), ('b', 1, CONST)], [('a', 1, 0, READ), ('b', 0, None, READ)],
  'scope 0, scope 1, declared a 0, declared b 1, used a 0, used b 1', 'script')
T("class a extends b { constructor() {} c() {} static { var x; } } a class, its constructor, a method and a static block",
  [klass('ClassDeclaration', 'a', method('constructor', function(None, []), 'constructor'), method('c', function(None, [])), N('StaticBlock', body=[lets('var', 'x')]), base=b)],
  [(None, MODULE, {'a': 0}), (0, STRICTLY, {}), (1, FUNCTION + CONSTRUCTOR + STRICTLY, {}), (1, FUNCTION + STRICTLY, {}), (1, STATIC + STRICTLY, {'x': 1})],
  [('a', 0, CLASS), ('x', 4, VAR)], [('b', 1, None, READ)],
  'scope 0, scope 1, declared a 0, used b 0, scope 2, scope 3, scope 4, declared x 1')
T("(class a { x = a; }); a class expression declares in itself, and a field's value has a scope",
  [ES(klass('ClassExpression', 'a', N('PropertyDefinition', computed=False, static=False, key=I('x'), value=a), N('PropertyDefinition', computed=False, static=False, key=I('y'), value=None)))],
  [(None, MODULE, {}), (0, STRICTLY, {'a': 0}), (1, STRICTLY, {})], [('a', 1, CLASS)], [('a', 2, 0, READ)],
  'scope 0, scope 1, declared a 0, scope 2, used a 0')
T('try {} catch (a) { a; }', [N('TryStatement', block=B(), handler=N('CatchClause', param=a, body=B(ES(a))), finalizer=None)],
  [(None, MODULE, {}), (0, BLOCK + STRICTLY, {}), (0, CATCH + STRICTLY, {'a': 0}), (2, BLOCK + STRICTLY, {})], [('a', 2, CAUGHT)], [('a', 3, 0, READ)],
  'scope 0, scope 1, scope 2, declared a 0, scope 3, used a 0')
T('for (let a of b) a; for (x in b);', [N('ForOfStatement', left=lets('let', 'a'), right=b, body=ES(a), **{'await': False}), N('ForInStatement', left=x, right=b, body=EMPTY)],
  [(None, MODULE, {}), (0, BLOCK + STRICTLY, {'a': 0}), (0, BLOCK + STRICTLY, {})], [('a', 1, LET)],
  [('b', 1, None, READ), ('a', 1, 0, READ), ('x', 2, None, WRITE), ('b', 2, None, READ)],
  'scope 0, scope 1, declared a 0, used b 0, used a 1, scope 2, used x 2, used b 3')
T('switch (a) { default: let a; } what is switched on lies outside', [N('SwitchStatement', discriminant=a, cases=[N('SwitchCase', test=None, consequent=[lets('let', 'a')])])],
  [(None, MODULE, {}), (0, BLOCK + STRICTLY, {'a': 0})], [('a', 1, LET)], [('a', 0, None, READ)], 'scope 0, scope 1, used a 0, declared a 0')
T('with (a) b => b; in a script', [N('WithStatement', object=a, body=ES(fn('ArrowFunctionExpression', None, [b], b, True)))],
  [(None, TOP, {}), (0, WITH, {}), (1, FUNCTION + ARROW, {'b': 0})], [('b', 2, VAR)], [('a', 0, None, READ), ('b', 2, 0, READ)],
  'scope 0, scope 1, used a 0, scope 2, declared b 0, used b 1', 'script')
T('{ function f() { eval(a); } {} } a direct call of eval is told of each scope around it', [B(F_('f', [], do('eval', a)), B())],
  [(None, MODULE + EVAL, {}), (0, BLOCK + STRICTLY + EVAL, {'f': 0}), (1, FUNCTION + STRICTLY + EVAL, {}), (1, BLOCK + STRICTLY, {})], [('f', 1, FUNCTION_NAME)],
  [('eval', 2, None, READ), ('a', 2, None, READ)], 'scope 0, scope 1, scope 2, declared f 0, used eval 0, used a 1, scope 3')
T("import { a as b } from 'm'; export { b }; a++;", [N('ImportDeclaration', specifiers=[N('ImportSpecifier', imported=a, local=b)], source=L('m')), exports('b'), ES(N('UpdateExpression', operator='++', prefix=False, argument=a))],
  [(None, MODULE, {'b': 0})], [('b', 0, IMPORT)], [('b', 0, 0, READ), ('a', 0, None, READ + WRITE)], 'scope 0, declared b 0, used b 0, used a 1')

# ---- the names of the first pattern, with places and symbols

def bound(shown, pattern, *told): rows.append((shown, 'bound', prog([var('let', (pattern, f))]), 'bound%s\n' % ''.join(', %s at %d %d symbol %d' % name for name in told)))


bound('let a = f; a name alone', at(a, 4, 5), ('a', 4, 5, 0))
bound('let { a, [b]: c = x, ...d } = f; not what a key or a default reads', N('ObjectPattern', properties=[
  prop(at(a, 6, 7), at(a, 6, 7), shorthand=True), prop(at(b, 10, 11), defaults(at(c, 14, 15), at(x, 18, 19)), computed=True), N('RestElement', argument=at(I('d'), 24, 25))]),
  ('a', 6, 7, 0), ('c', 14, 15, 1), ('d', 24, 25, 2))
bound('let [b, , [a]] = f;', N('ArrayPattern', elements=[at(b, 5, 6), None, N('ArrayPattern', elements=[at(a, 11, 12)])]), ('b', 5, 6, 0), ('a', 11, 12, 1))
bound('let [] = f; none', N('ArrayPattern', elements=[]))

# ---- sites

OWN, PARAMETERS, BODY = '%d own', '%d parameters', '%d body'
sites("(function a(b = c) { c; }); an expression's own name lies around its parameters, and these around its body", [ES(function('a', [defaults(b, c)], ES(c)))],
      [(None, None, MODULE), (None, 0, FUNCTION + STRICTLY)], [('a', None, OWN % 1, FUNCTION_NAME), ('b', None, PARAMETERS % 1, VAR)],
      [('c', None, 1, READ, [PARAMETERS % 1, OWN % 1, BODY % 0]), ('c', None, 1, READ, [BODY % 1, PARAMETERS % 1, OWN % 1, BODY % 0])])
sites('{ a; } a block is a scope', [B(ES(a))], [(None, None, MODULE), (None, 0, BLOCK + STRICTLY)], [], [('a', None, 1, READ, [BODY % 1, BODY % 0])])
sites('/*#__NO_SIDE_EFFECTS__*/ function a() {} with its place', [pure(dict(F_('a', []), id=at(a, 34, 35)))],
      [(None, None, MODULE), (None, 0, FUNCTION + STRICTLY)], [('a', None, BODY % 0, Declared(FUNCTION_NAME, True, (34, 35)))], [])
rows.append(('what stands around a program', 'outermost', None, 'declares in 0 body, layers 0\n'))

# ---- marks, where declared names have other symbols than their own

marks('let a; a declared name has its symbol', [7], [lets('let', 'a')], 'scope 0, declared a 7', [(0, None, MODULE)], [('a', 7, BODY % 0, LET)], [])
marks('a; b = a; a reference has its number', [7], [ES(a), ES(asg('=', b, a))], 'scope 0, used a 0, used b 1, used a 2', [(0, None, MODULE)], [],
      [('a', 0, 0, READ, [BODY % 0]), ('b', 1, 0, WRITE, [BODY % 0]), ('a', 2, 0, READ, [BODY % 0])])
marks('{} a block is the second scope', [7], [B()], 'scope 0, scope 1', [(0, None, MODULE), (1, 0, BLOCK + STRICTLY)], [], [])
marks('; debugger; -1; no other node is marked', [7], [EMPTY, DEBUGGER, ES(un('-', L(1)))], 'scope 0', [(0, None, MODULE)], [], [])
marks('{ let a, b; } let c; names for which no symbol is left have no mark', [8, 7], [B(lets('let', 'a', 'b')), lets('let', 'c')],
      'scope 0, scope 1, declared a 8, declared b 7, declared c -', [(0, None, MODULE), (1, 0, BLOCK + STRICTLY)],
      [('a', 8, BODY % 1, LET), ('b', 7, BODY % 1, LET), ('c', None, BODY % 0, LET)], [])

# ---- tables of edited sites: var a; var a; { let f; a; a = 1; f; } c; c;
#
# Its scopes are the module and the block, its declarations a, a and f, and its references a, a, f, c and c.

PROGRAM = prog([lets('var', 'a'), lets('var', 'a'), B(lets('let', 'f'), ES(a), ES(asg('=', a, L(1))), ES(f)), ES(c), ES(c)])
PLACES = ['0.2.0.1.0', '0.2.0.2.0.0', '0.2.0.3.0', '0.3.0', '0.4.0']
edit('the table of the program itself: var a; var a; { let f; a; a = 1; f; } c; c;', 'nothing 0 -', PROGRAM, True)
edit('marks in another order, which are those of the table', ', '.join(['mark %s %d' % (place, 4 - i) for i, place in enumerate(PLACES)] + ['reference.first %d -' % i for i in range(1, 5)]), PROGRAM, True)
edit('and where the table keeps its order', ', '.join('mark %s %d' % (place, 4 - i) for i, place in enumerate(PLACES)), PROGRAM, False)
edit('a name too many', 'declaration.again 0 d', PROGRAM, False)
edit('another name', 'declaration.name 2 g', PROGRAM, False)
edit('another parent', 'scope.parent 1 -', PROGRAM, False)
edit('other flags of a scope', 'scope.flags 1 64', PROGRAM, False)
edit('a redeclaration is missing', 'declaration.gone 1 -', PROGRAM, False)
edit('a redeclaration too many', 'declaration.again 1 -', PROGRAM, False)
edit('other flags of a symbol', 'declaration.flags 0 2', PROGRAM, False)
edit('another scope of a symbol', 'declaration.scope 2 0', PROGRAM, False)
edit('a symbol is pure', 'declaration.pure 2 -', PROGRAM, False)
edit('a reference is missing', 'reference.gone 4 -', PROGRAM, False)
edit('a reference too many', 'reference.again 4 a', PROGRAM, False)
edit('another scope of a reference', 'reference.scope 0 0', PROGRAM, False)
edit('another symbol of a reference', 'reference.name 2 a', PROGRAM, False)
edit('other flags of a reference', 'reference.flags 1 3', PROGRAM, False)
edit('an unresolved name is missing', 'reference.name 3 a, reference.name 4 a', PROGRAM, False)
edit('an unresolved name too many', 'reference.name 3 d', PROGRAM, False)
edit('a mark is missing', 'mark 0.4.0 -', PROGRAM, False)
edit('a mark stands twice', 'mark 0.4.0 3', PROGRAM, False)
edit('the mark of a scope is missing', 'mark 0.2 -', PROGRAM, False)
edit('the declarations of a name have two marks', 'mark 0.1.0.0.0 1', PROGRAM, False)
edit('names have the symbols of others', 'declaration.first 2 -', PROGRAM, False)


def line(question, tree): return question + '\n' if tree is None else '%s:%s\n' % (question, text(tree))
def given(): return ''.join('// %s\n%s' % (shown, line(question, tree)) for shown, question, tree, _ in rows)
def wanted(): return ''.join('// %s\n%s' % (shown, answer) for shown, _, _, answer in rows)


FILES = {'test_scope/stdin': given, 'test_scope/stdout': wanted}

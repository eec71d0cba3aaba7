"""test_form: programs, and where each breaks a rule of form first, told from ECMA-262 and counted by hand.

Each row is a program in words, with its source type and body, and what is said of it: W, or the rule and the place. A place
is the number of nodes before a node in preorder. The program is at 0, a directive takes two places (its literal is a node), a
declaration has its declarators behind it and these their names, a function its name, its parameters and its body, a class its
name and its body, and a member of a class its function; keys but private ones are no nodes.
"""
from examples import B, ES, I, L, N, call, fn, mem, prog, text, un, var

W = 'well formed'
THIS = N('ThisExpression')
EMPTY = N('EmptyStatement')
STRICT = N('ExpressionStatement', expression=L('use strict'), directive='use strict')
RETURN = N('ReturnStatement', argument=None)


def let(name, value=None): return var('let', (I(name), value))
def variable(name): return var('var', (I(name), None))
def private(name): return N('PrivateIdentifier', name=name)
def rest(name): return N('RestElement', argument=I(name))
def function(name, params, *body): return fn('FunctionDeclaration', I(name), params, B(*body))
def arrow(params, *body): return fn('ArrowFunctionExpression', None, params, B(*body))
def extends(parent, *members): return N('ClassDeclaration', id=I('A'), superClass=parent, body=N('ClassBody', body=list(members)))
def class_a(*members): return extends(None, *members)
def method(kind, key, *params, static=False, body=()): return N('MethodDefinition', kind=kind, computed=False, static=static, key=key, value=fn('FunctionExpression', None, list(params), B(*body)))
def field(key): return N('PropertyDefinition', computed=False, static=False, key=key, value=None)
def exported(declaration): return N('ExportNamedDeclaration', declaration=declaration, specifiers=[], source=None)
def exports(local, name): return N('ExportNamedDeclaration', declaration=None, specifiers=[N('ExportSpecifier', local=I(local), exported=I(name))], source=None)
def loops(body): return N('WhileStatement', test=L(1), body=body)
def labels(name, body): return N('LabeledStatement', label=I(name), body=body)
def breaks(label=None): return N('BreakStatement', label=label and I(label))
def continues(label=None): return N('ContinueStatement', label=label and I(label))
def tries(param, *body): return N('TryStatement', block=B(), handler=N('CatchClause', param=param, body=B(*body)), finalizer=None)
def case(test=None): return N('SwitchCase', test=test, consequent=[])
def switch(*cases): return N('SwitchStatement', discriminant=L(1), cases=list(cases))


CONSTRUCTOR = method('constructor', I('constructor'))
GET_A, GET_B, GET_C = (method('get', private(x)) for x in 'abc')
SET_A = method('set', private('a'), I('v'))
STATIC_SET_A, STATIC_SET_B = (method('set', private(x), I('v'), static=True) for x in 'ab')
SUPER_CALL = ES(call(N('Super')))
FOR_OF = lambda left: N('ForOfStatement', left=left, right=L(1), body=EMPTY, **{'await': False})

# What the rows show: each the program in words, its source type and body, and what is said of it.
S, M, C = 'script', 'module', 'commonjs'
GROUPS = [
 ('names of a scope', [
  ('let a; let b;', S, [let('a'), let('b')], W),
  ('let a; let a;', S, [let('a'), let('a')], (1, 6)),
  ('{ let a; function a() {} }', S, [B(let('a'), function('a', []))], (1, 6)),
  ('{ let a; var b; let b; function a() {} }: the first of two clashes', S, [B(let('a'), variable('b'), let('b'), function('a', []))], (1, 10)),
  ('{ function a() {} function a() {} }', S, [B(function('a', []), function('a', []))], W),
  ('function b() {} var b;', S, [function('b', []), variable('b')], W),
  ('let a; { var b; let c; } let c;', S, [let('a'), B(variable('b'), let('c')), let('c')], W),
  ('let a; { var b; let c; } let a;', S, [let('a'), B(variable('b'), let('c')), let('a')], (1, 13)),
  ('let a; { var b; let c; } let b;: a variable leaves its block', S, [let('a'), B(variable('b'), let('c')), let('b')], (1, 13)),
  ('let b; { var b; let c; }', S, [let('b'), B(variable('b'), let('c'))], (1, 7)),
  ('function f(c, c) {}', M, [function('f', [I('c'), I('c')])], (2, 4)),
  ('function f(c, c) {}', S, [function('f', [I('c'), I('c')])], W),
  ('try {} catch (d) { var d; }', M, [tries(I('d'), variable('d'))], (9, 8)),
  ('try {} catch (d) { var e; }', M, [tries(I('d'), variable('e'))], W),
 ]),
 ('the first break, by place and then by rule', [
  ('return; let a; let a;', S, [RETURN, let('a'), let('a')], (6, 1)),
  ('this.#1;: one place breaks two rules', M, [ES(mem(THIS, private('1')))], (4, 4)),
  ('let a; let if; let if;', S, [let('a'), let('if'), let('if')], (5, 6)),
  ('let if; let if;', S, [let('if'), let('if')], (5, 3)),
  ('function f(...a, ...b, ...c, d) {}', M, [function('f', [rest('a'), rest('b'), rest('c'), I('d')])], (11, 3)),
 ]),
 ('what may be left', [
  ('; ; ; ; ; ; return;', S, [EMPTY] * 6 + [RETURN], (6, 7)),
  (';', S, [EMPTY], W),
  ('return;', C, [RETURN], W),
  ('return;', M, [RETURN], (6, 1)),
  ('a: while (1) continue a;', S, [labels('a', loops(continues('a')))], W),
  ('a: b: while (1) continue a;', S, [labels('a', labels('b', loops(continues('a'))))], W),
  ('a: { continue a; }', S, [labels('a', B(continues('a')))], (3, 3)),
  ('a: while (1) break a;', S, [labels('a', loops(breaks('a')))], W),
  ('a: while (1) break b;', S, [labels('a', loops(breaks('b')))], (3, 4)),
  ('a: while (1) break;', S, [labels('a', loops(breaks()))], W),
  ('break;', S, [breaks()], (3, 1)),
  ('a: let b;: a declaration alone', S, [labels('a', let('b'))], (11, 2)),
  ('a: var b;', S, [labels('a', variable('b'))], W),
 ]),
 ('exports', [
  ('let a; export { a }; let b; export { b }; export { a };', M, [let('a'), exports('a', 'a'), let('b'), exports('b', 'b'), exports('a', 'a')], (7, 13)),
  ('let a; export { a }; export { b }; export { a };', M, [let('a'), exports('a', 'a'), exports('b', 'b'), exports('a', 'a')], (7, 7)),
  ('let a; export { a }; export { a as b };', M, [let('a'), exports('a', 'a'), exports('a', 'b')], W),
  ('export let a; let b; export { b as c };', M, [exported(let('a')), let('b'), exports('b', 'c')], W),
  ('export let a; export { b as c };: a local name stands at its statement', M, [exported(let('a')), exports('b', 'c')], (7, 5)),
  ('let b; export { b as a }; export let a;: a declared one too', M, [let('b'), exports('b', 'a'), exported(let('a'))], (7, 7)),
  ('export let a; let c; export { c as a };', M, [exported(let('a')), let('c'), exports('c', 'a')], (7, 8)),
  ('export let a; let b; export { b as c }; export { b as c };', M, [exported(let('a')), let('b'), exports('b', 'c'), exports('b', 'c')], (7, 11)),
  ('export let a;', S, [exported(let('a'))], (7, 1)),
 ]),
 ('private names and members', [
  ('class A { get #a() {} set #a(v) {} }', S, [class_a(GET_A, SET_A)], W),
  ('class A { get #a() {} set #a(v) {} get #b() {} static set #b(v) {} #c; get #c() {} }', S, [class_a(GET_A, SET_A, GET_B, STATIC_SET_B, field(private('c')), GET_C)], (4, 18)),
  ('class A { get #a() {} set #a(v) {} #c; get #c() {} }', S, [class_a(GET_A, SET_A, field(private('c')), GET_C)], (4, 16)),
  ('class A { constructor() {} get #a() {} }', S, [class_a(CONSTRUCTOR, GET_A)], W),
  ('class A { constructor() {} get #a() {} get #a() {} }', S, [class_a(CONSTRUCTOR, GET_A, GET_A)], (4, 12)),
  ('class A { constructor() {} get #a() {} set #a(v) {} }', S, [class_a(CONSTRUCTOR, GET_A, SET_A)], W),
  ('class A { constructor() {} get #a() {} static set #a(v) {} }', S, [class_a(CONSTRUCTOR, GET_A, STATIC_SET_A)], (4, 12)),
  ('class A { constructor() {} get #a() {} constructor() {} }', S, [class_a(CONSTRUCTOR, GET_A, CONSTRUCTOR)], (11, 11)),
  ('this.#a;', S, [ES(mem(THIS, private('a')))], (4, 4)),
 ]),
 ('parts of nodes', [
  ('switch (1) { case this: default: }', S, [switch(case(THIS), case())], W),
  ('switch (1) { case this: default: default: }', S, [switch(case(THIS), case(), case())], (11, 6)),
  ('const a;', S, [var('const', (I('a'), None))], (11, 2)),
  ('const a = 1;', S, [var('const', (I('a'), L(1)))], W),
  ('for (const a of 1) ;', S, [FOR_OF(var('const', (I('a'), None)))], W),
  ('for (const a = 1 of 1) ;', S, [FOR_OF(var('const', (I('a'), L(1))))], (11, 3)),
  ('function f(...a, ...b) {}', S, [function('f', [rest('a'), rest('b')])], (11, 3)),
  ('function f(a, ...b) {}', S, [function('f', [I('a'), rest('b')])], W),
 ]),
 ('what means something where it stands', [
  ('class A extends B { constructor() { super(); } }', M, [extends(I('B'), method('constructor', I('constructor'), body=[SUPER_CALL]))], W),
  ('class A { constructor() { super(); } }', M, [class_a(method('constructor', I('constructor'), body=[SUPER_CALL]))], (8, 8)),
  ('function f() { new.target; }', M, [function('f', [], ES(N('MetaProperty', meta=I('new'), property=I('target'))))], W),
  ('new.target;', M, [ES(N('MetaProperty', meta=I('new'), property=I('target')))], (8, 2)),
  ('with (1) ;', S, [N('WithStatement', object=L(1), body=EMPTY)], W),
  ('with (1) ;', M, [N('WithStatement', object=L(1), body=EMPTY)], (10, 1)),
  ('delete a;', S, [ES(un('delete', I('a')))], W),
  ('"use strict"; delete a;', S, [STRICT, ES(un('delete', I('a')))], (10, 4)),
 ]),
]


# Names where a class has them behind `#`, where they are read, and where they are declared; in code that is strict by its
# directive too.
def behind_hash(name, said): return 'class A { #%s; }' % name, S, [class_a(field(private(name)))], said
def read(name, said, kind=S): return '%s;' % name, kind, [ES(I(name))], said
def bound(name, said, kind=S): return 'var %s;' % name, kind, [variable(name)], said
def read_strictly(name, said): return '"use strict"; %s;' % name, S, [STRICT, ES(I(name))], said
def bound_strictly(name, said): return '"use strict"; var %s;' % name, S, [STRICT, variable(name)], said


NO_PRIVATE_NAME, NOT_READ, NOT_BOUND, NOT_READ_STRICTLY, NOT_BOUND_STRICTLY = (5, 5), (5, 2), (5, 3), (5, 4), (5, 5)
GROUPS += [
 ('what is written as a name', [behind_hash(name, W) for name in ('$a_1', '\u00e4', 'if')] + [behind_hash(name, NO_PRIVATE_NAME) for name in ('1a', 'a b', '')]),
 ('what may be read', [
  read('if', NOT_READ), read('1a', NOT_READ), read('let', W), read_strictly('let', NOT_READ_STRICTLY), read_strictly('await', W),
  read('await', NOT_READ, M), read('eval', W, M),
 ]),
 ('what may be bound', [
  bound('\u00e4', W, M), bound('eval', W), bound_strictly('eval', NOT_BOUND_STRICTLY), bound_strictly('arguments', NOT_BOUND_STRICTLY),
  bound('with', NOT_BOUND),
 ]),
]

# The reserved words of ECMA-262 12.7.2, without the two that some code may read, and those that strict code reserves beside them.
RESERVED = '''break case catch class const continue debugger default delete do else enum export extends false finally for function
if import in instanceof new null return super switch this throw true try typeof var void while with'''.split()
STRICT_WORDS = 'implements interface let package private protected public static yield'.split()
GROUPS += [
 ('reserved words: names of members, but neither read nor bound', [row for word in RESERVED for row in (
  behind_hash(word, W), read(word, NOT_READ), bound(word, NOT_BOUND), read(word, NOT_READ, M))]),
 ('words that strict code reserves', [row for word in STRICT_WORDS for row in (
  read(word, W), bound(word, W), read_strictly(word, NOT_READ_STRICTLY), bound(word, NOT_BOUND, M))]),
]


def said(answer): return W if answer == W else 'rule %d of form is broken at %d' % answer
def lines(of_row): return ''.join('// %s\n%s' % (what, ''.join('// %s: %s\n%s\n' % (kind, words, of_row(kind, body, answer)) for words, kind, body, answer in rows)) for what, rows in GROUPS)
def given(): return lines(lambda kind, body, answer: text(prog(body, kind)))
def wanted(): return lines(lambda kind, body, answer: said(answer))


FILES = {'test_form/stdin': given, 'test_form/stdout': wanted}

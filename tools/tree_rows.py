"""test_tree: what is asked of trees, and the answers, told from the definitions and from ECMA-262, and counted by hand.

Each row is a program in words, the question, the tree and its operand, and the answer. The questions are those of
crates/test_tree/src/question.rt. A tree is an ESTree program, or a number of operators `!` that stand before `this`: such a
program has three levels and nodes more than operators, and its text 67 bytes for each and 119 around them. Or it is a word
for a tree that no text gives.
"""
from effects_rows import an_object, binary, spread, template
from examples import B, ES, I, L, N, call, fn, mem, prog, prop, text, un, var

EMPTY = N('EmptyStatement')
THIS = N('ThisExpression')
NULL = L(None)
HOLE = None


def module(*body): return prog(list(body), 'module')
def script(*body): return prog(list(body), 'script')
def class_a(parent=None): return N('ClassDeclaration', id=I('A'), superClass=parent, body=N('ClassBody', body=[]))
def array(*elements): return N('ArrayExpression', elements=list(elements))
def pattern(*elements): return N('ArrayPattern', elements=list(elements))
def default(left, right): return N('AssignmentPattern', left=left, right=right)
def rest(argument): return N('RestElement', argument=argument)
def declares(*names): return text(module(var('var', *[(I(name), None) for name in names])))
def label(name, body): return N('LabeledStatement', label=I(name), body=body)
def let(declared, value): return var('let', (declared, value))
def eval_of(callee, optional=False): return call(callee, optional=optional)
def parenthesized(expression): return N('ParenthesizedExpression', expression=expression)
def new(pure, span=None): return N('NewExpression', callee=I('f'), arguments=[], pure=pure, **(dict(start=span[0], end=span[1]) if span else {}))


NAMED = dict(I('a'), start=3, end=9)
WITH_CLASS = module(class_a(THIS))
SWITCH = N('SwitchStatement', discriminant=THIS, cases=[N('SwitchCase', test=None, consequent=[B(EMPTY)])])
LABELED = module(label('l', ES(L(1))))

GROUPS = [
 ('how large trees are, up to a limit', [
  ('the empty module', 'size', module(), '10', 'nodes 1 levels 1'),
  ('the empty module', 'size', module(), '0', 'nodes 1 levels 1'),
  ('class A extends this {}: heritage stands two levels down', 'size', WITH_CLASS, '100', 'nodes 5 levels 4'),
  ('class A extends this {}', 'size', WITH_CLASS, '2', 'nodes 3 levels 3'),
  ('class A {}', 'size', module(class_a()), '100', 'nodes 4 levels 3'),
  ('return [,];: a hole is a node', 'size', module(N('ReturnStatement', argument=array(HOLE))), '100', 'nodes 4 levels 4'),
  ('a thousand levels', 'size', 997, '998', 'nodes 999 levels 999'),
  ('a thousand levels', 'size', 997, '1000', 'nodes 1000 levels 1000'),
 ]),
 ('what copies hold', [
  ('var a; where the name has a span', 'copy', script(var('var', (NAMED, None))), '', 'nodes 4 levels 4 #7 3-9\n' + text(script(var('var', (I('a'), None))))),
  ('a thousand levels', 'copy', 997, '', 'nodes 1000 levels 1000 #7\n66918 bytes'),
  ('ä;: a name', 'clone', module(ES(I('ä'))), '', 'name ä'),
  ("throw 'a\U0001f600';: a text", 'clone', module(N('ThrowStatement', argument=L('a\U0001f600'))), '', 'text a\U0001f600'),
  ('this;: neither, so of the whole program', 'clone', module(ES(THIS)), '', text(module(ES(THIS)))),
 ]),
 ('which trees are equal', [
  ('[new f(), ,] with a mark, and itself', 'equal', module(ES(array(new(True), HOLE))), module(ES(array(new(True), HOLE))), 'equal'),
  ('[new f(), ,] with a span', 'equal', module(ES(array(new(True), HOLE))), module(ES(array(new(True, (1, 8)), HOLE))), 'equal'),
  ('[new f(), ,] without the mark', 'equal', module(ES(array(new(True), HOLE))), module(ES(array(new(False), HOLE))), 'different'),
  ('[new f(), ,] and [new f()]', 'equal', module(ES(array(new(True), HOLE))), module(ES(array(new(True)))), 'different'),
  ('a module and a script', 'equal', module(), script(), 'different'),
  ('a thousand levels', 'equal', 997, 997, 'equal'),
  ('a thousand levels and 999', 'equal', 997, 996, 'different'),
 ]),
 ('what is left', [
  ('a thousand levels', 'clear', 997, '', '66918 bytes'),
  ('l: 1;', 'clear', LABELED, '', text(LABELED)),
  ('; l: 1; { ; }', 'clear', module(EMPTY, label('l', ES(L(1))), B(EMPTY)), '', text(module(label('l', ES(L(1))), B()))),
 ]),
 ('names', [
  ('(eval)()', 'eval', module(ES(eval_of(parenthesized(I('eval'))))), '', 'direct eval'),
  ('(evil)()', 'eval', module(ES(eval_of(parenthesized(I('evil'))))), '', 'no direct eval'),
  ('eval()', 'eval', module(ES(eval_of(I('eval')))), '', 'direct eval'),
  ('eval?.()', 'eval', module(ES(eval_of(I('eval'), optional=True))), '', 'no direct eval'),
  ('let [...[a = b]] = c;', 'names', module(let(pattern(rest(pattern(default(I('a'), I('b'))))), I('c'))), '', 'names a'),
  ('let { a, [b]: c = d, ...e } = f;', 'names', module(let(N('ObjectPattern', properties=[prop(I('a'), I('a'), shorthand=True), prop(I('b'), default(I('c'), I('d')), computed=True), rest(I('e'))]), I('f'))), '', 'names a c e'),
  ('let [] = a;', 'names', module(let(pattern(), I('a'))), '', 'names'),
 ]),
 ('which names stay of statements that go', [
  ('{ var a = 1; for (var b in o) { var a; } (function () { var c; })(); }', 'kept', module(B(var('var', (I('a'), L(1))), N('ForInStatement', left=var('var', (I('b'), None)), right=I('o'), body=B(var('var', (I('a'), None)))), ES(call(fn('FunctionExpression', None, [], B(var('var', (I('c'), None)))))))), '', declares('a', 'b', 'a')),
  ('f();', 'kept', module(ES(call(I('f')))), '', 'none'),
  ('var { a, [b]: c = d, ...e } = f, [g] = h;', 'kept', module(var('var', (N('ObjectPattern', properties=[prop(I('a'), I('a'), shorthand=True), prop(I('b'), default(I('c'), I('d')), computed=True), rest(I('e'))]), I('f')), (pattern(I('g')), I('h')))), '', declares('a', 'c', 'e', 'g')),
  ('l: if (a) var b; else while (c) { let d; var e; }', 'kept', module(label('l', N('IfStatement', test=I('a'), consequent=var('var', (I('b'), None)), alternate=N('WhileStatement', test=I('c'), body=B(let(I('d'), None), var('var', (I('e'), None))))))), '', declares('b', 'e')),
  ('switch (a) { case 1: var b; default: { var c; } } try { var d; } catch (e) { var f; } finally { var g; }', 'kept', module(N('SwitchStatement', discriminant=I('a'), cases=[N('SwitchCase', test=L(1), consequent=[var('var', (I('b'), None))]), N('SwitchCase', test=None, consequent=[B(var('var', (I('c'), None)))])]), N('TryStatement', block=B(var('var', (I('d'), None))), handler=N('CatchClause', param=I('e'), body=B(var('var', (I('f'), None)))), finalizer=B(var('var', (I('g'), None))))), '', declares('b', 'c', 'd', 'f', 'g')),
  ('for (var a = () => { var b; }; ;) do var c; while (d); for (var e of f) var g;', 'kept', module(N('ForStatement', init=var('var', (I('a'), fn('ArrowFunctionExpression', None, [], B(var('var', (I('b'), None)))))), test=None, update=None, body=N('DoWhileStatement', test=I('d'), body=var('var', (I('c'), None)))), N('ForOfStatement', left=var('var', (I('e'), None)), right=I('f'), body=var('var', (I('g'), None)), **{'await': False})), '', declares('a', 'c', 'e', 'g')),
  ('with (a) var b; in a script', 'kept', script(N('WithStatement', object=I('a'), body=var('var', (I('b'), None)))), '', declares('b')),
  ('function a() { var b; } class C { static { var d; } } let e = 1; const f = 2;', 'kept', module(fn('FunctionDeclaration', I('a'), [], B(var('var', (I('b'), None)))), N('ClassDeclaration', id=I('C'), superClass=None, body=N('ClassBody', body=[N('StaticBlock', body=[var('var', (I('d'), None))])])), let(I('e'), L(1)), var('const', (I('f'), L(2)))), '', 'none'),
 ]),
 ('what is silent', [
  ('null;', 'silent', module(ES(NULL)), '', 'silent'),
  ('debugger;', 'silent', module(N('DebuggerStatement')), '', 'not silent'),
  ('undefined;', 'silent', module(ES(I('undefined'))), '', 'silent'),
  ('undefine;', 'silent', module(ES(I('undefine'))), '', 'not silent'),
  ('-1;', 'silent', module(ES(un('-', L(1)))), '', 'silent'),
  ('!1;', 'silent', module(ES(un('!', L(1)))), '', 'silent'),
  ('-a;', 'silent', module(ES(un('-', I('a')))), '', 'not silent'),
  ('-undefined;', 'silent', module(ES(un('-', I('undefined')))), '', 'not silent'),
  ('-[];', 'silent', module(ES(un('-', array()))), '', 'not silent'),
  ('- (-1 + "a");', 'silent', module(ES(un('-', parenthesized(binary('+', un('-', L(1)), L('a')))))), '', 'silent'),
  ('delete 1;', 'silent', module(ES(un('delete', L(1)))), '', 'not silent'),
  ('typeof a;', 'silent', module(ES(un('typeof', I('a')))), '', 'silent'),
  ('typeof ((a));', 'silent', module(ES(un('typeof', parenthesized(parenthesized(I('a')))))), '', 'silent'),
  ('typeof a.b;', 'silent', module(ES(un('typeof', mem(I('a'), I('b'))))), '', 'not silent'),
  ('typeof a === "b";', 'silent', module(ES(binary('===', un('typeof', I('a')), L('b')))), '', 'silent'),
  ('[] < 1;', 'silent', module(ES(binary('<', array(), L(1)))), '', 'silent'),
  ('a == 1;', 'silent', module(ES(binary('==', I('a'), L(1)))), '', 'not silent'),
  ('1 in [];', 'silent', module(ES(binary('in', L(1), array()))), '', 'not silent'),
  ('1 + [];', 'silent', module(ES(binary('+', L(1), array()))), '', 'not silent'),
  ('`${1}`;', 'silent', module(ES(template(L(1)))), '', 'silent'),
  ('`${[]}`;', 'silent', module(ES(template(array()))), '', 'not silent'),
  ('[...[1]];', 'silent', module(ES(array(spread(array(L(1)))))), '', 'silent'),
  ('[..."a"];', 'silent', module(ES(array(spread(L('a'))))), '', 'not silent'),
  ('({ ...[1] });', 'silent', module(ES(an_object(spread(array(L(1)))))), '', 'not silent'),
  ('({ [1]: 2 });', 'silent', module(ES(an_object(prop(L(1), L(2), computed=True)))), '', 'silent'),
  ('({ [[]]: 2 });', 'silent', module(ES(an_object(prop(array(), L(2), computed=True)))), '', 'not silent'),
  ('this;', 'silent', module(ES(THIS)), '', 'silent'),
  ('this.a;', 'silent', module(ES(mem(THIS, I('a')))), '', 'not silent'),
  ('(class {});', 'silent', module(ES(N('ClassExpression', id=None, superClass=None, body=N('ClassBody', body=[])))), '', 'not silent'),
 ]),
 ('what a walk visits: none below a block', [
  ('switch (this) { default: { ; } } debugger;', 'visits', script(SWITCH, N('DebuggerStatement')), '', 'visits 6'),
  ('a.b;', 'visits', module(ES(mem(I('a'), I('b')))), '', 'visits 4'),
 ]),
 ('which trees fit the table of node types', [
  ('! this;', 'fits', 1, '', 'fits'),
  ('export { a }; with a class, a switch, a label and a pattern', 'fits', module(class_a(THIS), SWITCH, label('l', ES(L(1))), let(pattern(rest(pattern(default(I('a'), I('b'))))), I('c')), N('ExportNamedDeclaration', declaration=None, specifiers=[N('ExportSpecifier', local=I('a'), exported=I('a'))], source=None)), '', 'fits'),
  ('a name below a literal', 'fits', '?below', '', 'does not fit'),
  ('a statement without its expression', 'fits', '?missing', '', 'does not fit'),
  ('a declared name where an expression stands', 'fits', '?place', '', 'does not fit'),
 ]),
 ('texts', [
  ('a thousand levels', 'text', 997, '', '66918 bytes'),
  ('! this;', 'text', 1, '', text(module(ES(un('!', THIS))))),
 ]),
]


def field(value): return '!%d' % value if isinstance(value, int) else text(value) if isinstance(value, dict) else value
def row(question, tree, operand): return '\t'.join([question, field(tree)] + ([field(operand)] if operand != '' else []))
def lines(of_row): return ''.join('// %s\n%s' % (what, ''.join('// %s\n%s\n' % (words, of_row(*rest)) for words, *rest in rows)) for what, rows in GROUPS)
def given(): return lines(lambda question, tree, operand, answer: row(question, tree, operand))
def wanted(): return lines(lambda question, tree, operand, answer: answer)


FILES = {'test_tree/stdin': given, 'test_tree/stdout': wanted}

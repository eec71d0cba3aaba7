"""test_expressions: what is asked of expressions, and the answers, told by hand from the rules and from ECMA-262.

Each row is a program in words, the question, the tree, and the answers for its expression statements, in order. The questions are
those of crates/test_expressions/src/question.rt.
"""
from examples import B, ES, I, L, N, asg, bi, call, fn, mem, prog, text, var

THIS = N('ThisExpression')


def module(*body): return prog(list(body), 'module')
def script(*body): return prog(list(body), 'script')
def common_js(*body): return prog(list(body), 'commonjs')
def parenthesized(expression): return N('ParenthesizedExpression', expression=expression)
def let(name, value=None): return var('let', (I(name), value))
def const(name): return var('const', (I(name), L(1)))
def function(name): return fn('FunctionDeclaration', I(name), [], B())
def imported(name): return N('ImportDeclaration', specifiers=[N('ImportSpecifier', imported=I(name), local=I(name))], source=L('m'), attributes=[])
def assigned(target): return ES(asg('=', target, L(1)))
def array(*elements): return N('ArrayPattern', elements=list(elements))
def member(object): return mem(object, I('p'))
def computed(object, key): return mem(object, key, True)
def each(*expressions): return [ES(e) for e in expressions]
def sums(*pairs): return module(*[ES(bi('+', left, right)) for left, right in pairs])


a, b, i, n, o = map(I, 'abino')
T, U = L('t'), L('u')

GROUPS = [
 ('which expressions may refer to something else when they are evaluated again', [
  ('const n = 1; let o; function f() {} n; o; f; (n); ((o));', 'change', module(const('n'), let('o'), function('f'), *each(n, o, I('f'), parenthesized(n), parenthesized(parenthesized(o)))), 'false false false false false'),
  ('this; ((this));', 'change', module(*each(THIS, parenthesized(parenthesized(THIS)))), 'false false'),
  ('a; (a); nothing declares it', 'change', module(*each(a, parenthesized(a))), 'true true'),
  ("import { i } from 'm'; i; (i);", 'change', module(imported('i'), *each(i, parenthesized(i))), 'true true'),
  ('let o; o = 1; o; the assignment itself is no name', 'change', module(let('o'), assigned(o), ES(o)), 'true true'),
  ('let o; o++; o;', 'change', module(let('o'), *each(N('UpdateExpression', operator='++', prefix=False, argument=o), o)), 'true true'),
  ('let o; [o] = 1; (o);', 'change', module(let('o'), assigned(array(o)), ES(parenthesized(o))), 'true true'),
  ('let o; o.p = 1; o; a write to a member is none to the name', 'change', module(let('o'), assigned(member(o)), ES(o)), 'true false'),
  ('let o; let n; o = 1; n;', 'change', module(let('o'), let('n'), assigned(o), ES(n)), 'true false'),
  ('const n = 1; n.p; 1; n();', 'change', module(const('n'), *each(member(n), L(1), call(n))), 'true true true'),
  ('var n; n; { let o; o; var b; b; } in a script', 'change', script(var('var', (n, None)), ES(n), B(let('o'), ES(o), var('var', (b, None)), ES(b))), 'true false true'),
  ('let o; { let o; o; o = 1; } o; in a script', 'change', script(let('o'), B(let('o'), ES(o), assigned(o)), ES(o)), 'true true true'),
  ('var n; n; { let o; o; o = 1; let b; b; } in a CommonJS module', 'change', common_js(var('var', (n, None)), ES(n), B(let('o'), ES(o), assigned(o), let('b'), ES(b))), 'false true true false'),
 ]),
 ('of which assigned members the object may refer to something else', [
  ('let o; const n = 1; o = 1; [o] = 1; [n.p] = 1;', 'target', module(let('o'), const('n'), assigned(o), assigned(array(o)), assigned(array(member(n)))), 'false false false'),
  ('const n = 1; n.p = 1; n[a] = 1; (n).p = 1; (n.p) = 1; n[o = 1] = 1;', 'target', module(const('n'), *map(assigned, [member(n), computed(n, a), member(parenthesized(n)), parenthesized(member(n)), computed(n, asg('=', o, L(1)))])), 'false false false false false'),
  ('const n = 1; n.p.p = 1; n().p = 1; a.p = 1; a[n] = 1;', 'target', module(const('n'), *map(assigned, [member(member(n)), member(call(n)), member(a), computed(a, n)])), 'true true true true'),
  ("import { i } from 'm'; i.p = 1; this.p = 1;", 'target', module(imported('i'), assigned(member(i)), assigned(member(THIS))), 'true false'),
  ('let o; o.p = 1; o = 1; (o).p = 1;', 'target', module(let('o'), assigned(member(o)), assigned(o), assigned(member(parenthesized(o)))), 'true false true'),
  ('var n; n.p = 1; { let o; o.p = 1; } in a script', 'target', script(var('var', (n, None)), assigned(member(n)), B(let('o'), assigned(member(o)))), 'true false'),
 ]),
 ('what stands behind a zero, and what is left where that does not matter', [
  ('o.p; a;', 'zero', module(ES(member(o)), ES(a)), ' '.join(text(module(ES(e))) for e in (N('SequenceExpression', expressions=[L(0), member(o)]), member(o), N('SequenceExpression', expressions=[L(0), a]), a))),
 ]),
 ('what is left of arguments of which nobody takes the values', [
  ("f(a, 1, 't', b); f(); f('t'); f(n(), !1, function () {});", 'needed', module(*each(call(I('f'), a, L(1), T, b), call(I('f')), call(I('f'), T), call(I('f'), call(n), N('UnaryExpression', operator='!', prefix=True, argument=L(1)), fn('FunctionExpression', None, [], B())))), 'a b;;; ?;'),
  ('const n = 1; f(n); nothing is known of names there', 'needed', module(const('n'), ES(call(I('f'), n))), 'no call; n;'),
  ('f(...a); f(1, ...a);', 'needed', module(*each(call(I('f'), N('SpreadElement', argument=a)), call(I('f'), L(1), N('SpreadElement', argument=a)))), 'spread; spread;'),
 ]),
 ('texts and names either way round', [
  ("'t' + a; a + 't';", 'pair', sums((T, a), (a, T)), 't a t a'),
  ("'t' + 'u'; 't' + 1; the second check refuses", 'pair', sums((T, U), (T, L(1))), 'none none'),
  ("a + b; 1 + a; the first check refuses both", 'pair', sums((a, b), (L(1), a)), 'none none'),
  ("1 + 't'; f() + 't'; the second check refuses the first", 'pair', sums((L(1), T), (call(I('f')), T)), 'none none'),
 ]),
 ('texts and names with texts: where the first check takes the first nothing is swapped', [
  ("'t' + 'u'; 'u' + 't'; a + 't';", 'word', sums((T, U), (U, T), (a, T)), 't u u t a t'),
  ("'t' + a; a + b;", 'word', sums((T, a), (a, b)), 'none none'),
  ("1 + 't'; 1 + a;", 'word', sums((L(1), T), (L(1), a)), 'none none'),
 ]),
 ('no question, and no tree', [
  ('this;', 'what', module(ES(THIS)), 'no question'),
 ]),
]


def lines(of_row): return ''.join('// %s\n%s' % (what, ''.join('// %s\n%s\n' % (words, of_row(*rest)) for words, *rest in rows)) for what, rows in GROUPS)
def given(): return lines(lambda question, tree, answers: '%s:%s' % (question, text(tree))) + 'change:{}\n'
def wanted(): return lines(lambda question, tree, answers: '%s: %s' % (question, answers)) + 'no tree\n'


FILES = {'test_expressions/stdin': given, 'test_expressions/stdout': wanted}

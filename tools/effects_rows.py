"""test_effects: expressions, and what is told of each: the type of its value, the value, whether it is true, whether it acts.

What is told stands here as ECMA-262 says it, counted by hand, and where it can't be told by form alone as `undetermined`,
`no value` and `may be true`. No name is global; behind `global` stands what is told where each is, if that is something
else. A number is `at the border` where one more or one less is out of the range in which whole numbers are exact (21.1.2.8),
and a text stands with the number of 32 bits that it is the text of (6.1.6.1.20). A row is an expression in words, its tree,
and what is told.
"""
from examples import B, ES, I, L, N, call, fn, mem, prog, prop, text, un


def binary(operator, left, right): return N('BinaryExpression', operator=operator, left=left, right=right)
def logical(operator, left, right): return N('LogicalExpression', operator=operator, left=left, right=right)
def conditional(test, a, b): return N('ConditionalExpression', test=test, consequent=a, alternate=b)
def sequence(*parts): return N('SequenceExpression', expressions=list(parts))
def array(*elements): return N('ArrayExpression', elements=list(elements))
def an_object(*properties): return N('ObjectExpression', properties=list(properties))
def element(tail): return N('TemplateElement', value=dict(raw='', cooked=''), tail=tail)
def spread(argument): return N('SpreadElement', argument=argument)
def a_class(*members, parent=None): return N('ClassExpression', id=None, superClass=parent, body=N('ClassBody', body=list(members)))
def template(part): return N('TemplateLiteral', quasis=[element(False), element(True)], expressions=[part])


LARGEST = 9007199254740991
CALL = call(I('f'))
FUNCTION = fn('FunctionExpression', None, [], B())
GROUPS = [
 ('numbers', [
  ('1 - 3', binary('-', L(1), L(3)), 'number -2 is true silent'),
  ('1 / 2', binary('/', L(1), L(2)), 'number no value may be true silent'),
  ('6 / 3', binary('/', L(6), L(3)), 'number 2 is true silent'),
  ('0 * -1', binary('*', L(0), un('-', L(1))), 'number no value may be true silent'),
  ('9007199254740991 + 1', binary('+', L(LARGEST), L(1)), 'number no value may be true silent'),
  ('9007199254740991 * 9007199254740991', binary('*', L(LARGEST), L(LARGEST)), 'number no value may be true silent'),
  ('-7 % 7', binary('%', un('-', L(7)), L(7)), 'number no value may be true silent'),
  ('7 % -2', binary('%', L(7), un('-', L(2))), 'number 1 is true silent'),
  ('-x', un('-', I('x')), 'undetermined no value may be true acts'),
  ('1 < 2', binary('<', L(1), L(2)), 'boolean true is true silent'),
  ('9007199254740991', L(LARGEST), 'number 9007199254740991 at the border is true silent'),
  ('9007199254740990', L(LARGEST - 1), 'number 9007199254740990 is true silent'),
  ('-9007199254740991', un('-', L(LARGEST)), 'number -9007199254740991 at the border is true silent'),
  ('-9007199254740990', un('-', L(LARGEST - 1)), 'number -9007199254740990 is true silent'),
  ('0', L(0), 'number 0 is false silent'),
 ]),
 ('texts of numbers', [
  ("''", L(''), "string '' is false silent"),
  ("'0'", L('0'), "string '0' of 0 is true silent"),
  ("'01'", L('01'), "string '01' is true silent"),
  ("'-0'", L('-0'), "string '-0' is true silent"),
  ("'-5'", L('-5'), "string '-5' of -5 is true silent"),
  ("'-'", L('-'), "string '-' is true silent"),
  ("'2147483647'", L('2147483647'), "string '2147483647' of 2147483647 is true silent"),
  ("'2147483648'", L('2147483648'), "string '2147483648' is true silent"),
  ("'-2147483648'", L('-2147483648'), "string '-2147483648' of -2147483648 is true silent"),
  ("'-2147483649'", L('-2147483649'), "string '-2147483649' is true silent"),
  ("'5a'", L('5a'), "string '5a' is true silent"),
 ]),
 ('texts and tests', [
  ("typeof 0", un('typeof', L(0)), "string 'number' is true silent"),
  ("'a' + 'b'", binary('+', L('a'), L('b')), "string 'ab' is true silent"),
  ("'' ?? f()", logical('??', L(''), CALL), "undetermined '' is false acts"),
  ('f() && 0', logical('&&', CALL, L(0)), 'undetermined no value is false acts'),
  ('x === y', binary('===', I('x'), I('y')), 'boolean no value may be true silent; global: boolean no value may be true acts'),
  ("'a' + 'b' === 'ab'", binary('===', binary('+', L('a'), L('b')), L('ab')), 'boolean true is true silent'),
  ('null == 0', binary('==', L(None), L(0)), 'boolean no value may be true silent'),
  ('void f()', un('void', CALL), 'undefined undefined is false acts'),
  ('null', L(None), 'null null is false silent'),
  ('(f(), 1)', sequence(CALL, L(1)), 'number 1 is true acts'),
  ("1 ? 'a' : 2", conditional(L(1), L('a'), L(2)), "undetermined 'a' is true silent"),
 ]),
 ('objects and templates', [
  ('!{}', un('!', an_object()), 'boolean false is false silent'),
  ('[, f()]', array(None, CALL), 'object no value is true acts'),
  ('`${1}`', template(L(1)), 'string no value may be true silent'),
  ('`${{}}`', template(an_object()), 'string no value may be true acts'),
  ('x.a', mem(I('x'), I('a')), 'undetermined no value may be true acts'),
 ]),
 ('names', [
  ('x', I('x'), 'undetermined no value may be true silent; global: undetermined no value may be true acts'),
  ('undefined', I('undefined'), 'undetermined no value may be true silent; global: undefined undefined is false silent'),
  ('typeof x', un('typeof', I('x')), 'string no value may be true silent'),
  ('typeof undefined', un('typeof', I('undefined')), "string no value may be true silent; global: string 'undefined' is true silent"),
  ('undefined == null', binary('==', I('undefined'), L(None)), 'boolean no value may be true silent; global: boolean true is true silent'),
  ('void x', un('void', I('x')), 'undefined undefined is false silent; global: undefined undefined is false acts'),
 ]),
 ('operators on numbers and other primitive values', [
  ('+1', un('+', L(1)), 'number 1 is true silent'),
  ("+'1'", un('+', L('1')), 'number no value may be true silent'),
  ('-null', un('-', L(None)), 'number no value may be true silent'),
  ('-0', un('-', L(0)), 'number no value may be true silent'),
  ('-5', un('-', L(5)), 'number -5 is true silent'),
  ('-(1 < 2)', un('-', binary('<', L(1), L(2))), 'number no value may be true silent'),
  ('~1', un('~', L(1)), 'number no value may be true silent'),
  ('~[]', un('~', array()), 'undetermined no value may be true acts'),
  ('1 + 2', binary('+', L(1), L(2)), 'number 3 is true silent'),
  ('2 * 3', binary('*', L(2), L(3)), 'number 6 is true silent'),
  ('2 ** 3', binary('**', L(2), L(3)), 'number no value may be true silent'),
  ('1 << 4', binary('<<', L(1), L(4)), 'number no value may be true silent'),
  ('1 >>> 0', binary('>>>', L(1), L(0)), 'number no value may be true silent'),
  ('5 & 3', binary('&', L(5), L(3)), 'number no value may be true silent'),
  ('1 / 0', binary('/', L(1), L(0)), 'number no value may be true silent'),
  ('1 % 0', binary('%', L(1), L(0)), 'number no value may be true silent'),
  ('0 / 5', binary('/', L(0), L(5)), 'number 0 is false silent'),
  ('0 / -5', binary('/', L(0), un('-', L(5))), 'number no value may be true silent'),
  ("1 + 'a'", binary('+', L(1), L('a')), 'string no value may be true silent'),
  ("'a' + null", binary('+', L('a'), L(None)), 'string no value may be true silent'),
  ('1 + true', binary('+', L(1), L(True)), 'number no value may be true silent'),
  ('x + 1', binary('+', I('x'), L(1)), 'undetermined no value may be true acts'),
  ("x + 'a'", binary('+', I('x'), L('a')), 'undetermined no value may be true acts'),
 ]),
 ('comparisons', [
  ("1 === '1'", binary('===', L(1), L('1')), 'boolean false is false silent'),
  ("1 !== '1'", binary('!==', L(1), L('1')), 'boolean true is true silent'),
  ("1 == '1'", binary('==', L(1), L('1')), 'boolean no value may be true silent'),
  ('1 != 2', binary('!=', L(1), L(2)), 'boolean true is true silent'),
  ('null === null', binary('===', L(None), L(None)), 'boolean true is true silent'),
  ("'a' === 'a'", binary('===', L('a'), L('a')), 'boolean true is true silent'),
  ('true === false', binary('===', L(True), L(False)), 'boolean false is false silent'),
  ("'a' < 'b'", binary('<', L('a'), L('b')), 'boolean no value may be true silent'),
  ('1 >= 1', binary('>=', L(1), L(1)), 'boolean true is true silent'),
  ('2 <= 1', binary('<=', L(2), L(1)), 'boolean false is false silent'),
  ('x == y', binary('==', I('x'), I('y')), 'boolean no value may be true silent; global: boolean no value may be true acts'),
  ('[] === []', binary('===', array(), array()), 'boolean no value may be true silent'),
  ('1 in {}', binary('in', L(1), an_object()), 'boolean no value may be true acts'),
  ('{} instanceof x', binary('instanceof', an_object(), I('x')), 'boolean no value may be true acts'),
 ]),
 ('unary operators, and what chooses', [
  ('!0', un('!', L(0)), 'boolean true is true silent'),
  ("!''", un('!', L('')), 'boolean true is true silent'),
  ('!x', un('!', I('x')), 'boolean no value may be true silent; global: boolean no value may be true acts'),
  ('!f()', un('!', CALL), 'boolean no value may be true acts'),
  ('!(f(), {})', un('!', sequence(CALL, an_object())), 'boolean false is false acts'),
  ('typeof null', un('typeof', L(None)), 'string no value may be true silent'),
  ('typeof {}', un('typeof', an_object()), 'string no value may be true silent'),
  ('typeof true', un('typeof', L(True)), "string 'boolean' is true silent"),
  ('typeof typeof x', un('typeof', un('typeof', I('x'))), "string 'string' is true silent"),
  ('typeof f()', un('typeof', CALL), 'string no value may be true acts'),
  ('typeof (1, 2)', un('typeof', sequence(L(1), L(2))), "string 'number' is true silent"),
  ('delete 1', un('delete', L(1)), 'undetermined no value may be true acts'),
  ('void 0', un('void', L(0)), 'undefined undefined is false silent'),
  ('1 && 2', logical('&&', L(1), L(2)), 'number 2 is true silent'),
  ("0 && 'a'", logical('&&', L(0), L('a')), 'undetermined 0 is false silent'),
  ("0 || 'a'", logical('||', L(0), L('a')), "undetermined 'a' is true silent"),
  ('x || 1', logical('||', I('x'), L(1)), 'undetermined no value is true silent; global: undetermined no value is true acts'),
  ('x && 0', logical('&&', I('x'), L(0)), 'undetermined no value is false silent; global: undetermined no value is false acts'),
  ('null ?? 1', logical('??', L(None), L(1)), 'undetermined 1 is true silent'),
  ('x ?? 1', logical('??', I('x'), L(1)), 'undetermined no value may be true silent; global: undetermined no value may be true acts'),
  ('{} ? 1 : 2', conditional(an_object(), L(1), L(2)), 'number 1 is true silent'),
  ('0 ? f() : 3', conditional(L(0), CALL, L(3)), 'undetermined 3 is true acts'),
  ('(x, 1)', sequence(I('x'), L(1)), 'number 1 is true silent; global: number 1 is true acts'),
  ('(1, x)', sequence(L(1), I('x')), 'undetermined no value may be true silent; global: undetermined no value may be true acts'),
  ('((1))', N('ParenthesizedExpression', expression=L(1)), 'number 1 is true silent'),
 ]),
 ('what makes objects', [
  ('{}', an_object(), 'object no value is true silent'),
  ('[x]', array(I('x')), 'object no value is true silent; global: object no value is true acts'),
  ('[...[1]]', array(spread(array(L(1)))), 'object no value is true silent'),
  ("[...'a']", array(spread(L('a'))), 'object no value is true acts'),
  ('{ ...{} }', an_object(spread(an_object())), 'object no value is true acts'),
  ('{ [1]: 2 }', an_object(prop(L(1), L(2), computed=True)), 'object no value is true silent'),
  ('{ [x]: 2 }', an_object(prop(I('x'), L(2), computed=True)), 'object no value is true acts'),
  ('{ get a() {} }', an_object(prop(I('a'), FUNCTION, kind='get')), 'object no value is true silent'),
  ('{ a: f() }', an_object(prop(I('a'), CALL)), 'object no value is true acts'),
  ('function () {}', FUNCTION, 'object no value is true silent'),
  ('() => f()', fn('ArrowFunctionExpression', None, [], CALL, True), 'object no value is true silent'),
  ('/a/', N('Literal', value={}, regex=dict(pattern='a', flags='')), 'object no value is true silent'),
  ('class {}', a_class(), 'object no value is true silent'),
  ('class extends x {}', a_class(parent=I('x')), 'object no value is true silent; global: object no value is true acts'),
  ('class extends (() => f()) {}', a_class(parent=fn('ArrowFunctionExpression', None, [], CALL, True)), 'object no value is true acts'),
  ('class { static {} }', a_class(N('StaticBlock', body=[])), 'object no value is true silent'),
  ('class { static a = 1 }', a_class(N('PropertyDefinition', computed=False, static=True, key=I('a'), value=L(1))), 'object no value is true acts'),
  ('class { a = f() }', a_class(N('PropertyDefinition', computed=False, static=False, key=I('a'), value=CALL)), 'object no value is true silent'),
  ('class { [f()]() {} }', a_class(N('MethodDefinition', kind='method', computed=True, static=False, key=CALL, value=FUNCTION)), 'object no value is true acts'),
  ('new f()', N('NewExpression', callee=I('f'), arguments=[]), 'undetermined no value is true acts'),
 ]),
 ('what else there is', [
  ('f()', CALL, 'undetermined no value may be true acts'),
  ('x?.a', N('ChainExpression', expression=mem(I('x'), I('a'), opt=True)), 'undetermined no value may be true acts'),
  ('x = 1', N('AssignmentExpression', operator='=', left=I('x'), right=L(1)), 'number no value may be true acts'),
  ('x += 1', N('AssignmentExpression', operator='+=', left=I('x'), right=L(1)), 'undetermined no value may be true acts'),
  ('x++', N('UpdateExpression', operator='++', prefix=False, argument=I('x')), 'undetermined no value may be true acts'),
  ('``', N('TemplateLiteral', quasis=[element(True)], expressions=[]), 'string no value may be true silent'),
  ('f``', N('TaggedTemplateExpression', tag=I('f'), quasi=N('TemplateLiteral', quasis=[element(True)], expressions=[])), 'undetermined no value may be true acts'),
  ('import(x)', N('ImportExpression', source=I('x')), 'undetermined no value may be true acts'),
  ('import.meta', N('MetaProperty', meta=I('import'), property=I('meta')), 'undetermined no value may be true acts'),
  ('new.target', N('MetaProperty', meta=I('new'), property=I('target')), 'undetermined no value may be true silent'),
  ('this', N('ThisExpression'), 'undetermined no value may be true silent'),
 ]),
]


def row(expression): return text(prog([ES(expression)], 'module'))
def lines(of_row): return ''.join('// %s\n%s' % (what, ''.join('// %s\n%s\n' % (words, of_row(*rest)) for words, *rest in rows)) for what, rows in GROUPS)
def given(): return lines(lambda expression, told: row(expression))
def wanted(): return lines(lambda expression, told: told)


FILES = {'test_effects/stdin': given, 'test_effects/stdout': wanted}

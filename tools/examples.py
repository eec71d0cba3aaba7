"""test_shake: worked rows of the program and of its calls, with what ESTree and docs/DEFINITIONS.md say of them.

Each case is a statement, or a program, in its own normal form, which is written as it was read; then inputs with the fault that they
have, inputs that are written otherwise than they were read, and what passes leave of a program. Behind these stand texts that are told
as they are, words and faults of the outside, and the library call.
"""
import json
import sys
sys.setrecursionlimit(20_000) # for rows that nest deeply

def N(t,**k): return dict(type=t,**k)
def I(s): return N('Identifier',name=s)
def L(v): return N('Literal',value=v)
def ES(e): return N('ExpressionStatement',expression=e)
def B(*b): return N('BlockStatement',body=list(b))
def fn(t,id,params,body,expr=False): return N(t,id=id,params=params,body=body,generator=False,expression=expr,**{'async':False})
def call(c,*a,**k): return N('CallExpression',callee=c,arguments=list(a),optional=k.get('optional',False),**({'pure':True} if k.get('pure') else {}))
def mem(o,p,c=False,opt=False): return N('MemberExpression',object=o,property=p,computed=c,optional=opt)
def prop(k,v,kind='init',computed=False,method=False,shorthand=False): return N('Property',kind=kind,computed=computed,method=method,shorthand=shorthand,key=k,value=v)
def var(kind,*ds): return N('VariableDeclaration',kind=kind,declarations=[N('VariableDeclarator',id=i,init=n) for i,n in ds])
def un(o,e): return N('UnaryExpression',operator=o,argument=e,prefix=True)
def bi(o,l,r): return N('BinaryExpression',operator=o,left=l,right=r)
def asg(o,l,r): return N('AssignmentExpression',operator=o,left=l,right=r)
def tmpl(qs,es): return N('TemplateLiteral',quasis=[N('TemplateElement',value=dict(raw=q,cooked=q),tail=i==len(qs)-1) for i,q in enumerate(qs)],expressions=es)
P=N('PrivateIdentifier',name='p')
a,b,c,f,x=map(I,'abcfx')
def prog(body,kind='module'): return N('Program',sourceType=kind,body=body)
def whole(s): return s if s['type']=='Program' else prog([s])
cases={}
cases['statements']=[
 N('ExpressionStatement',expression=L('use strict'),directive='use strict'),
 B(N('DebuggerStatement')), N('IfStatement',test=a,consequent=N('EmptyStatement'),alternate=ES(b)), prog([N('WithStatement',object=a,body=B(ES(call(f))))],'script'),
 N('LabeledStatement',label=I('l'),body=N('WhileStatement',test=a,body=B(N('IfStatement',test=b,consequent=N('BreakStatement',label=I('l')),alternate=None),N('ContinueStatement',label=None)))),
 N('IfStatement',test=a,consequent=ES(b),alternate=None), N('IfStatement',test=a,consequent=ES(b),alternate=ES(c)),
 N('SwitchStatement',discriminant=a,cases=[N('SwitchCase',test=L(1),consequent=[ES(b)]),N('SwitchCase',test=None,consequent=[])]),
 N('ThrowStatement',argument=a), N('TryStatement',block=B(ES(call(f))),handler=N('CatchClause',param=I('e'),body=B()),finalizer=None),
 N('TryStatement',block=B(ES(call(f))),handler=None,finalizer=B()),
 N('DoWhileStatement',body=B(ES(call(f))),test=a),
 N('ForStatement',init=var('let',(a,L(0))),test=None,update=None,body=B(ES(call(f)))), N('ForStatement',init=asg('=',a,L(1)),test=a,update=N('UpdateExpression',operator='++',prefix=False,argument=a),body=N('EmptyStatement')),
 N('ForInStatement',left=var('const',(a,None)),right=b,body=B(ES(call(f)))), N('ForOfStatement',left=mem(a,b),right=b,body=B(ES(call(f))),**{'await':False}),
 prog([fn('FunctionDeclaration',f,[a,N('AssignmentPattern',left=b,right=L(1)),N('RestElement',argument=N('ArrayPattern',elements=[None,c]))],B(N('ExpressionStatement',expression=L('d'),directive='d'),N('IfStatement',test=a,consequent=N('ReturnStatement',argument=a),alternate=None),N('ReturnStatement',argument=None)))],'script'),
]
SILENT=('Literal','ThisExpression','ArrowFunctionExpression','FunctionExpression','UnaryExpression')
cases['expressions']=[N('ThrowStatement',argument=e) if e['type'] in SILENT else ES(e) for e in [
 L(None),L(True),L(7),N('Literal',value={},regex=dict(pattern='a',flags='g')),N('ThisExpression'),
 call(I('use'),N('ArrayExpression',elements=[a,None,N('SpreadElement',argument=b)])),
 N('ObjectExpression',properties=[prop(a,a,shorthand=True),prop(L('k'),b),prop(L(3),b),prop(a,b,computed=True),prop(I('g'),fn('FunctionExpression',None,[],B()),kind='get'),prop(I('m'),fn('FunctionExpression',None,[],B()),method=True),N('SpreadElement',argument=c)]),
 fn('ArrowFunctionExpression',None,[a],b,True),dict(fn('ArrowFunctionExpression',None,[],B()),noSideEffects=True),
 un('typeof',a),un('-',L(3)),bi('in',a,b),bi('>>>',a,b),N('LogicalExpression',operator='??',left=a,right=b),
 asg('=',N('ObjectPattern',properties=[prop(a,N('AssignmentPattern',left=a,right=L(1)),shorthand=True),prop(L('q'),mem(b,c)),N('RestElement',argument=x)]),b),
 asg('+=',mem(a,b,True),c),asg('=',N('ArrayPattern',elements=[a,None,N('RestElement',argument=b)]),c),
 N('ConditionalExpression',test=a,consequent=b,alternate=c),
 call(a,b,N('SpreadElement',argument=c),pure=True),dict(N('NewExpression',callee=a,arguments=[b]),pure=True),
 N('ChainExpression',expression=mem(call(mem(a,b,opt=True),optional=True),c)),N('ParenthesizedExpression',expression=a),N('SequenceExpression',expressions=[a,b]),
 call(I('use'),tmpl(['a','b'],[c])),N('TaggedTemplateExpression',tag=a,quasi=tmpl(['z'],[])),
 call(I('use'),N('Literal',value={},regex=dict(pattern='a',flags='g'))),fn('FunctionExpression',None,[],B(N('ReturnStatement',argument=N('MetaProperty',meta=I('new'),property=I('target'))))),N('MetaProperty',meta=I('import'),property=I('meta')),N('ImportExpression',source=a),
]]
cases['classes']=[
 N('ClassDeclaration',id=a,superClass=b,body=N('ClassBody',body=[
  N('MethodDefinition',kind='constructor',computed=False,static=False,key=I('constructor'),value=fn('FunctionExpression',None,[],B(ES(call(N('Super'))),ES(mem(N('Super'),x))))),
  N('PropertyDefinition',computed=False,static=True,key=P,value=None),N('PropertyDefinition',computed=True,static=False,key=a,value=L(1)),
  N('StaticBlock',body=[ES(bi('in',P,mem(a,P)))])])),
 ES(N('ClassExpression',id=None,superClass=None,body=N('ClassBody',body=[]))),
]
cases['modules']=[
 prog([N('ImportDeclaration',specifiers=[N('ImportSpecifier',imported=L('a b'),local=a),N('ImportDefaultSpecifier',local=b),N('ImportNamespaceSpecifier',local=c)],source=L('m')),ES(call(a,b,c))]),
 N('ExportNamedDeclaration',declaration=var('var',(N('ObjectPattern',properties=[prop(a,b),prop(c,N('AssignmentPattern',left=c,right=L(1)),shorthand=True)]),a)),specifiers=[],source=None),
 prog([var('let',(a,None)),N('ExportNamedDeclaration',declaration=None,specifiers=[N('ExportSpecifier',local=a,exported=L('x y'))],source=None)]),
 N('ExportNamedDeclaration',declaration=None,specifiers=[N('ExportSpecifier',local=I('default'),exported=b)],source=L('m')),
 N('ExportDefaultDeclaration',declaration=fn('FunctionDeclaration',None,[],B())),
 N('ExportDefaultDeclaration',declaration=N('ClassDeclaration',id=None,superClass=None,body=N('ClassBody',body=[]))),
 N('ExportDefaultDeclaration',declaration=a),
 N('ExportAllDeclaration',exported=None,source=L('m')),N('ExportAllDeclaration',exported=I('ns'),source=L('m')),
]
faults=[]
def F(name,body,fault): faults.append((name,prog(body),fault))
def bf(k,f): return 'shake: bad field %s in %s\n'%(f,k)
un_='shake: unknown node %s\n'
F('f1',[ES(N('YieldExpression'))],un_%'YieldExpression')
F('f2',[ES(dict(L(1),bigint=None))],un_%'Literal')
F('f3',[ES(N('Super'))],bf('ExpressionStatement','expression'))
F('f4',[ES(N('NewExpression',callee=N('Super'),arguments=[]))],bf('NewExpression','callee'))
F('f5',[ES(bi('+',P,a))],bf('BinaryExpression','left'))
F('f6',[ES(asg('+=',N('ArrayPattern',elements=[]),a))],bf('AssignmentExpression','left'))
F('f7',[ES(N('ObjectExpression',properties=[prop(L(-1),a)]))],bf('Property','key'))
F('f8',[ES(N('ObjectExpression',properties=[prop(P,a)]))],bf('Property','key'))
F('f9',[fn('FunctionDeclaration',None,[],B())],bf('FunctionDeclaration','id'))
F('f10',[dict(fn('FunctionDeclaration',f,[],B()),generator=True)],bf('FunctionDeclaration','generator'))
F('f11',[B(N('ImportDeclaration',specifiers=[],source=L('m')))],bf('BlockStatement','body'))
F('f12',[N('ExportNamedDeclaration',declaration=var('var',(a,None)),specifiers=[N('ExportSpecifier',local=a,exported=a)],source=None)],bf('ExportNamedDeclaration','specifiers'))
F('f13',[N('ExportNamedDeclaration',declaration=var('var',(a,None)),specifiers=[],source=L('m'))],bf('ExportNamedDeclaration','source'))
F('f14',[N('ExportNamedDeclaration',declaration=None,specifiers=[N('ExportSpecifier',local=L('q'),exported=a)],source=None)],bf('ExportSpecifier','local'))
F('f15',[ES(L(9007199254740992))],'shake: number out of range\n')
F('f16',[ES(dict(call(a),optional=1))],bf('CallExpression','optional'))
F('f17',[ES(asg('=',N('ParenthesizedExpression',expression=L(5)),a))],bf('ParenthesizedExpression','expression'))
F('f18',[ES(N('MetaProperty',meta=I('new'),property=I('meta')))],bf('MetaProperty','property'))
F('f19',[ES(N('ImportExpression',source=a,options=b))],bf('ImportExpression','options'))
F('f20',[ES(fn('ArrowFunctionExpression',a,[],a,True))],bf('ArrowFunctionExpression','id'))
F('f21',[var('let',(N('AssignmentPattern',left=a,right=b),None))],bf('VariableDeclarator','id'))
F('f22',[ES(asg('=',N('ObjectPattern',properties=[prop(a,b,kind='get')]),a))],bf('Property','kind'))
F('f23',[N('LabeledStatement',label=I('l'),body=None)],bf('LabeledStatement','body'))
F('f24',[N('BreakStatement',label=N('Identifier'))],bf('Identifier','name'))
F('f25',[N('ForOfStatement',left=a,right=b,body=B(),**{'await':True})],bf('ForOfStatement','await'))
F('f26',[ES(bi('=',a,b))],bf('BinaryExpression','operator'))
F('f27',[ES(tmpl(['a'],[])|dict(quasis=[N('TemplateElement',value=dict(raw='a'),tail=True)]))],bf('TemplateElement','value'))
F('f28',[ES(N('Literal',value=None,raw='1n'))],'shake: number out of range\n')
F('f29',[N('ImportDeclaration',specifiers=[],source=L(3))],bf('ImportDeclaration','source'))
F('f30',[ES(mem(a,L('k')))],bf('MemberExpression','property'))
others=[('o1',prog([ES(asg('=',N('ParenthesizedExpression',expression=N('ParenthesizedExpression',expression=a)),b))]),prog([ES(asg('=',a,b))])),
 ('o2',prog([N('ThrowStatement',argument=L(-4))]),prog([N('ThrowStatement',argument=un('-',L(4)))])),
 ('o3',prog([N('ThrowStatement',argument=N('ObjectExpression',properties=[prop(I('a b'),a)]))]),prog([N('ThrowStatement',argument=N('ObjectExpression',properties=[prop(L('a b'),a)]))])),
 ('o4',prog([N('ThrowStatement',argument=N('ObjectExpression',properties=[dict(N('Property',kind='init',key=a,value=a))]))]),prog([N('ThrowStatement',argument=N('ObjectExpression',properties=[prop(a,a,shorthand=True)]))])),
 ('o5',prog([ES(dict(call(a),pure='x',foo=[1],optional=False))]),prog([ES(call(a))])),
 ('o6',prog([dict(ES(mem(a,b)),start=1,end=4)]),prog([ES(mem(a,b))])),
]

F('f31',[ES(N('AwaitExpression',argument=a))],un_%'AwaitExpression')
F('f32',[N('TSTypeAliasDeclaration')],un_%'TSTypeAliasDeclaration')
F('f33',[ES(N('JSXElement'))],un_%'JSXElement')
F('f34',[ES(N('Import'))],un_%'Import')
F('f35',[N('Statement')],un_%'Statement')
F('f36',[N('ClassDeclaration',id=a,superClass=None,body=N('ClassBody',body=[N('AccessorProperty',key=a)]))],un_%'AccessorProperty')
F('f37',[ES(N('a b-c'))],'shake: unknown node a?b?c\n')
F('f38',[dict(fn('FunctionDeclaration',f,[],B()),**{'async':True})],bf('FunctionDeclaration','async'))
F('f39',[ES(fn('FunctionExpression',None,[],B())|dict(generator=True))],bf('FunctionExpression','generator'))
F('f40',[N('ClassDeclaration',id=a,superClass=None,body=N('ClassBody',body=[]),decorators=[a])],bf('ClassDeclaration','decorators'))
F('f41',[N('ImportDeclaration',specifiers=[],source=L('m'),attributes=[a])],bf('ImportDeclaration','attributes'))
F('f42',[N('ImportDeclaration',specifiers=[],source=L('m'),assertions=[a])],bf('ImportDeclaration','assertions'))
F('f43',[N('ImportDeclaration',specifiers=[],source=L('m'),phase='defer')],bf('ImportDeclaration','phase'))
F('f44',[N('WithStatement',object=a)],bf('WithStatement','body'))
F('f45',[N('ReturnStatement',argument=N('SpreadElement',argument=a))],bf('ReturnStatement','argument'))
F('f46',[N('IfStatement',consequent=ES(a))],bf('IfStatement','test'))
F('f47',[N('IfStatement',test=a,consequent=a)],bf('IfStatement','consequent'))
F('f48',[N('SwitchStatement',discriminant=a,cases={})],bf('SwitchStatement','cases'))
F('f49',[N('SwitchStatement',discriminant=a,cases=[ES(a)])],bf('SwitchStatement','cases'))
F('f50',[N('TryStatement',block=ES(a),handler=None,finalizer=None)],bf('TryStatement','block'))
F('f51',[N('TryStatement',block=B(),handler=B(),finalizer=None)],bf('TryStatement','handler'))
F('f52',[N('WhileStatement',test=a,body=fn('ArrowFunctionExpression',None,[],a,True))],bf('WhileStatement','body'))
F('f53',[N('ForInStatement',left=L(1),right=b,body=B())],bf('ForInStatement','left'))
F('f54',[N('VariableDeclaration',kind='using',declarations=[])],bf('VariableDeclaration','kind'))
F('f55',[N('VariableDeclaration',kind='let',declarations=[a])],bf('VariableDeclaration','declarations'))
F('f56',[N('ClassDeclaration',superClass=None,body=N('ClassBody',body=[]))],bf('ClassDeclaration','id'))
F('f57',[N('ClassDeclaration',id=a,superClass=None,body=B())],bf('ClassDeclaration','body'))
F('f58',[ES(N('UnaryExpression',operator='++',argument=a))],bf('UnaryExpression','operator'))
F('f59',[ES(N('UpdateExpression',operator='++',prefix=True,argument=L(1)))],bf('UpdateExpression','argument'))
F('f60',[ES(N('UpdateExpression',operator='++',prefix=1,argument=a))],bf('UpdateExpression','prefix'))
F('f61',[ES(N('LogicalExpression',operator='^^',left=a,right=b))],bf('LogicalExpression','operator'))
F('f62',[ES(N('ConditionalExpression',test=a,consequent=b))],bf('ConditionalExpression','alternate'))
F('f63',[ES(N('CallExpression',callee=a,arguments=[None],optional=False))],bf('CallExpression','arguments'))
F('f64',[ES(N('ChainExpression',expression=a))],bf('ChainExpression','expression'))
F('f65',[ES(N('TaggedTemplateExpression',tag=a,quasi=L('x')))],bf('TaggedTemplateExpression','quasi'))
F('f66',[ES(N('ArrayExpression',elements=[L(1),5]))],bf('ArrayExpression','elements'))
F('f67',[N('ExportAllDeclaration',exported=L(1),source=L('m'))],bf('ExportAllDeclaration','exported'))
F('f68',[N('ExportDefaultDeclaration',declaration=var('let',(a,None)))],bf('ExportDefaultDeclaration','declaration'))
F('f69',[ES(L(-9007199254740992))],'shake: number out of range\n')
F('f70',[N('ContinueStatement',label=L('l'))],bf('ContinueStatement','label'))


# What passes leave: the program in words, its body, what is left of it (None: all), the passes that changed something, and the
# references that resolve.
shaken=[]
def S(words,body,left,passes,references,kind='module'): shaken.append((words,prog(body,kind),prog(body if left is None else left,kind),passes,references))
def F_(name,params,*body): return fn('FunctionDeclaration',I(name),[I(p) for p in params],B(*body))
def export(d): return N('ExportNamedDeclaration',declaration=d,specifiers=[],source=None)
def exports(*xs): return N('ExportNamedDeclaration',declaration=None,specifiers=[N('ExportSpecifier',local=I(x),exported=I(x)) for x in xs],source=None)
def use(*es): return ES(call(I('use'),*es))
def do(n,*args): return ES(call(I(n),*args))
EMPTY=N('EmptyStatement')
DEBUGGER=N('DebuggerStatement')
RETURN=lambda e: N('ReturnStatement',argument=e)
IF=lambda then,other=None: N('IfStatement',test=a,consequent=then,alternate=other)
LABEL=lambda l,s: N('LabeledStatement',label=I(l),body=s)
ARROW=lambda *body: fn('ArrowFunctionExpression',None,[],B(*body))
STRICT=N('ExpressionStatement',expression=L('use strict'),directive='use strict')
x_is=lambda v,kind='let': var(kind,(x,v))
S('1; let x = 2; let y = x; f();',[ES(L(1)),x_is(L(2)),var('let',(I('y'),x)),do('f')],[do('f')],2,0)
S('; f();',[EMPTY,do('f')],[do('f')],0,0)
S('; debugger; 1;',[EMPTY,DEBUGGER,ES(L(1))],[DEBUGGER],1,0)
S("import 'm'; var x = 1; export function f() { if (x) a(); }",[N('ImportDeclaration',specifiers=[],source=L('m')),x_is(L(1),'var'),export(F_('f',[],N('IfStatement',test=x,consequent=do('a'),alternate=None)))],None,0,1)
S('export function f() { return g(); let x = 1; function g() { return x; } }',[export(F_('f',[],RETURN(call(I('g'))),x_is(L(1)),F_('g',[],RETURN(x))))],None,0,2)
S('let x = 1; export { x };',[x_is(L(1)),exports('x')],None,0,1)
S('use(9007199254740991 + 1);',[use(bi('+',L(9007199254740991),L(1)))],None,0,0)
S('use(0 * -1);',[use(bi('*',L(0),un('-',L(1))))],None,0,0)
S('var x = 1; export var x;',[x_is(L(1),'var'),export(x_is(None,'var'))],None,0,0)
S('export function a() { b(); } function b() { c(); } function c() {}',[export(F_('a',[],do('b'))),F_('b',[],do('c')),F_('c',[])],None,0,2)
S('function f() {} in a script',[F_('f',[])],None,0,0,'script')
S('function f() {} in a module',[F_('f',[])],[],1,0)
S("function f() {} eval('f()');",[F_('f',[]),do('eval',L('f()'))],None,0,0)
S("let x = 1; use(function () { eval(''); });",[x_is(L(1)),do('use',fn('FunctionExpression',None,[],B(do('eval',L('')))))],None,0,0)
S('let x = f();',[x_is(call(f))],[do('f')],1,0)
S('let a = 1, b = f(), c = 2;',[var('let',(a,L(1)),(b,call(f)),(c,L(2)))],[do('f')],2,0)
S('for (let a = 1;;) b();',[N('ForStatement',init=var('let',(a,L(1))),test=None,update=None,body=do('b'))],None,0,0)
S('switch (a) { case 1: 1; b(); default: ; }',[N('SwitchStatement',discriminant=a,cases=[N('SwitchCase',test=L(1),consequent=[ES(L(1)),do('b')]),N('SwitchCase',test=None,consequent=[EMPTY])])],[N('SwitchStatement',discriminant=a,cases=[N('SwitchCase',test=L(1),consequent=[do('b')]),N('SwitchCase',test=None,consequent=[])])],1,0)
S('if (a) 1;',[IF(ES(L(1)))],[ES(a)],1,0)
S('if (a) b(); else 1;',[IF(do('b'),ES(L(1)))],[IF(do('b'))],1,0)
S('while (a) 1;',[N('WhileStatement',test=a,body=ES(L(1)))],[N('WhileStatement',test=a,body=EMPTY)],1,0)
S('do 1; while (a);',[N('DoWhileStatement',body=ES(L(1)),test=a)],[N('DoWhileStatement',body=EMPTY,test=a)],1,0)
S('for (let a = 1; ; 1) 1;',[N('ForStatement',init=var('let',(a,L(1))),test=None,update=L(1),body=ES(L(1)))],[N('ForStatement',init=var('let',(a,L(1))),test=None,update=L(1),body=EMPTY)],1,0)
S('for (const k in a) k;',[N('ForInStatement',left=var('const',(I('k'),None)),right=a,body=ES(I('k')))],[N('ForInStatement',left=var('const',(I('k'),None)),right=a,body=EMPTY)],1,0)
S('for (const k of a) !k;',[N('ForOfStatement',left=var('const',(I('k'),None)),right=a,body=ES(un('!',I('k'))),**{'await':False})],[N('ForOfStatement',left=var('const',(I('k'),None)),right=a,body=EMPTY,**{'await':False})],1,0)
S('1; l: 1; m: n: 1;',[ES(L(1)),LABEL('l',ES(L(1))),LABEL('m',LABEL('n',ES(L(1))))],[],1,0)
S('with (o) 1; in a script',[N('WithStatement',object=I('o'),body=ES(L(1)))],[N('WithStatement',object=I('o'),body=EMPTY)],1,0,'script')
S('function f(o, x) { with (o) x; } in a script',[F_('f',['o','x'],N('WithStatement',object=I('o'),body=ES(x)))],None,0,2,'script')
S('if (a) while (b) 1; else if (c) 1; else { 1; }',[IF(N('WhileStatement',test=b,body=ES(L(1))),N('IfStatement',test=c,consequent=ES(L(1)),alternate=B(ES(L(1)))))],[IF(N('WhileStatement',test=b,body=EMPTY),ES(c))],1,0)
S('let x; if (a) x; b();',[x_is(None),IF(ES(x)),do('b')],[ES(a),do('b')],2,0)
S('if (a) (() => { if (b) 1; }); use(() => { if (b) 1; });',[IF(ES(ARROW(N('IfStatement',test=b,consequent=ES(L(1)),alternate=None)))),use(ARROW(N('IfStatement',test=b,consequent=ES(L(1)),alternate=None)))],[ES(a),use(ARROW(ES(b)))],1,0)
S("'use strict'; if (a) 'use strict';",[STRICT,IF(ES(L('use strict')))],[STRICT,ES(a)],1,0)
S('if (a) b; else -1; while (a) this;',[IF(ES(b),ES(un('-',L(1)))),N('WhileStatement',test=a,body=ES(N('ThisExpression')))],[IF(ES(b)),N('WhileStatement',test=a,body=EMPTY)],1,0)
S('if (a) b; else -c;',[IF(ES(b),ES(un('-',c)))],None,0,0)
S('undefined; undefine;',[ES(I('undefined')),ES(I('undefine'))],[ES(I('undefine'))],1,0)
S('function a() { b(); } function b() {}',[F_('a',[],do('b')),F_('b',[])],[],2,0)
S('function f() { f(); }',[F_('f',[],do('f'))],None,0,1)
S('function f(x) { var x = 1; } in a script',[F_('f',['x'],x_is(L(1),'var'))],[F_('f',['x'])],1,0,'script')
S('function f(x) { with (x) { x; } x; } in a script',[F_('f',['x'],N('WithStatement',object=x,body=B(ES(x))),ES(x))],[F_('f',['x'],N('WithStatement',object=x,body=B(ES(x))))],1,2,'script')
S('function f() { function g() {} { function h() {} } } in a script',[F_('f',[],F_('g',[]),B(F_('h',[])))],[F_('f',[],B(F_('h',[])))],1,0,'script')
S("function f() { 'use strict'; { function h() {} } } in a script",[F_('f',[],STRICT,B(F_('h',[])))],[F_('f',[],STRICT)],1,0,'script')
S('function f(o) { with (o) { var x = 1; var y; } } in a script',[F_('f',['o'],N('WithStatement',object=I('o'),body=B(x_is(L(1),'var'),var('var',(I('y'),None)))))],[F_('f',['o'],N('WithStatement',object=I('o'),body=B(x_is(L(1),'var'))))],1,1,'script')
S('var x = 1; in a script',[x_is(L(1),'var')],None,0,0,'script')
S('let x = 1; return; in a CommonJS module',[x_is(L(1)),RETURN(None)],[RETURN(None)],1,0,'commonjs')
S('var x = 1; in a CommonJS module',[x_is(L(1),'var')],[],1,0,'commonjs')
S('export let x = 1; export function f() { let y; }',[export(x_is(L(1))),export(F_('f',[],var('let',(I('y'),None))))],[export(x_is(L(1))),export(F_('f',[]))],1,0)
S('let x; [x, , !x]; ({ a: x, m() {} }); x ? void x : typeof x;',[x_is(None),ES(N('ArrayExpression',elements=[x,None,un('!',x)])),ES(N('ObjectExpression',properties=[prop(a,x),prop(I('m'),fn('FunctionExpression',None,[],B()),method=True)])),ES(N('ConditionalExpression',test=x,consequent=un('void',x),alternate=un('typeof',x)))],[],2,0)
S('let x; x && (x, x); (x ?? (() => x)) || (function () {});',[x_is(None),ES(N('LogicalExpression',operator='&&',left=x,right=N('SequenceExpression',expressions=[x,x]))),ES(N('LogicalExpression',operator='||',left=N('ParenthesizedExpression',expression=N('LogicalExpression',operator='??',left=x,right=fn('ArrowFunctionExpression',None,[],x,True))),right=fn('FunctionExpression',None,[],B())))],[],2,0)
S('let x; [...x]; ({ [x]: 1 }); ({ get a() {} }); -x; f(x), 2;',[x_is(None),ES(N('ArrayExpression',elements=[N('SpreadElement',argument=x)])),ES(N('ObjectExpression',properties=[prop(x,L(1),computed=True)])),ES(N('ObjectExpression',properties=[prop(a,fn('FunctionExpression',None,[],B()),kind='get')])),ES(un('-',x)),ES(N('SequenceExpression',expressions=[call(f,x),L(2)]))],[x_is(None),ES(N('ArrayExpression',elements=[N('SpreadElement',argument=x)])),ES(N('ObjectExpression',properties=[prop(x,L(1),computed=True)])),ES(un('-',x)),do('f',x)],1,4)
S("let x = typeof a !== 'undefined', y = 1 << 4, z = -1; which read nothing that is declared",[var('let',(x,bi('!==',un('typeof',a),L('undefined'))),(I('y'),bi('<<',L(1),L(4))),(I('z'),un('-',L(1))))],[],1,0)
S("typeof a === 'b'; null < -1; `c${-1}`; ({ [-1]: 2, get a() {} }); [...[-1]]; '1' - !true;",[ES(bi('===',un('typeof',a),L('b'))),ES(bi('<',L(None),un('-',L(1)))),ES(tmpl(['c',''],[un('-',L(1))])),ES(N('ObjectExpression',properties=[prop(un('-',L(1)),L(2),computed=True),prop(a,fn('FunctionExpression',None,[],B()),kind='get')])),ES(N('ArrayExpression',elements=[N('SpreadElement',argument=N('ArrayExpression',elements=[un('-',L(1))]))])),ES(bi('-',L('1'),un('!',L(True))))],[],1,0)
S('let x; x === 1; x < x; !x != x; x ? -!x : typeof x;',[x_is(None),ES(bi('===',x,L(1))),ES(bi('<',x,x)),ES(bi('!=',un('!',x),x)),ES(N('ConditionalExpression',test=x,consequent=un('-',un('!',x)),alternate=un('typeof',x)))],[],2,0)
S('let x; x - 1; x + x; x in x; `${x}`; ({ [x]: x }); ~x; which convert what x is',[x_is(None),ES(bi('-',x,L(1))),ES(bi('+',x,x)),ES(bi('in',x,x)),ES(tmpl(['',''],[x])),ES(N('ObjectExpression',properties=[prop(x,x,computed=True)])),ES(un('~',x))],None,0,9)
S('-undefined; delete 1; this; (class {});',[ES(un('-',I('undefined'))),ES(un('delete',L(1))),ES(N('ThisExpression')),ES(N('ClassExpression',id=None,superClass=None,body=N('ClassBody',body=[])))],[ES(un('-',I('undefined'))),ES(un('delete',L(1))),ES(N('ClassExpression',id=None,superClass=None,body=N('ClassBody',body=[])))],1,0)
THIS=N('ThisExpression')
S('var self = this; let own = [this]; !this; this === 1; typeof this; a.b;',[var('var',(I('self'),THIS)),var('let',(I('own'),N('ArrayExpression',elements=[THIS]))),ES(un('!',THIS)),ES(bi('===',THIS,L(1))),ES(un('typeof',THIS)),ES(mem(a,b))],[ES(mem(a,b))],1,0)
S('export function f() { let self = this; if (a) this; return () => { this; this.b; -this; }; }',[export(F_('f',[],var('let',(I('self'),THIS)),IF(ES(THIS)),RETURN(ARROW(ES(THIS),ES(mem(THIS,b)),ES(un('-',THIS))))))],[export(F_('f',[],ES(a),RETURN(ARROW(ES(mem(THIS,b)),ES(un('-',THIS))))))],1,0)
S('this; class c extends a { constructor() { this; let self = this; () => this; } b() { this; } } function f() { this; } use(c, f);',[ES(THIS),N('ClassDeclaration',id=c,superClass=a,body=N('ClassBody',body=[N('MethodDefinition',kind='constructor',computed=False,static=False,key=I('constructor'),value=fn('FunctionExpression',None,[],B(ES(THIS),var('let',(I('self'),THIS)),ES(ARROW(ES(THIS)))))),N('MethodDefinition',kind='method',computed=False,static=False,key=b,value=fn('FunctionExpression',None,[],B(ES(THIS))))])),F_('f',[],ES(THIS)),use(c,f)],[N('ClassDeclaration',id=c,superClass=a,body=N('ClassBody',body=[N('MethodDefinition',kind='constructor',computed=False,static=False,key=I('constructor'),value=fn('FunctionExpression',None,[],B(ES(THIS),ES(THIS)))),N('MethodDefinition',kind='method',computed=False,static=False,key=b,value=fn('FunctionExpression',None,[],B(ES(THIS))))])),F_('f',[]),use(c,f)],1,2)
S('with (o) { this; var x = this; } in a script',[N('WithStatement',object=I('o'),body=B(ES(THIS),var('var',(x,THIS))))],[N('WithStatement',object=I('o'),body=B(var('var',(x,THIS))))],1,0,'script')
S('with (o) { typeof x; typeof -1; } in a script',[N('WithStatement',object=I('o'),body=B(ES(un('typeof',x)),ES(un('typeof',un('-',L(1))))))],[N('WithStatement',object=I('o'),body=B(ES(un('typeof',x))))],1,0,'script')
S('(function f(f, b = c) { var c; f; b; c; });',[ES(fn('FunctionExpression',f,[f,N('AssignmentPattern',left=b,right=c)],B(var('var',(c,None)),ES(f),ES(b),ES(c))))],[],1,0)
S('let x;',[var('let',(x,None))],[],1,0)
S('let x; in a script',[var('let',(x,None))],None,0,0,'script')
S('use(/a/g); whose name nothing declares',[use(N('Literal',value={},regex=dict(pattern='a',flags='g')))],None,0,0)
COND=lambda test,then,other: N('ConditionalExpression',test=test,consequent=then,alternate=other)
AND,OR,ELSE=(lambda l,r,o=o: N('LogicalExpression',operator=o,left=l,right=r) for o in ('&&','||','??'))
PAREN=lambda e: N('ParenthesizedExpression',expression=e)
o,g=I('o'),I('g')
S('use(true ? a : b);',[use(COND(L(True),a,b))],[use(a)],1,0)
S("use('' ? a : b); use(null ? a : b);",[use(COND(L(''),a,b)),use(COND(L(None),a,b))],[use(b),use(b)],1,0)
S('use(true ? (0 ? a : b) : c);',[use(COND(L(True),COND(L(0),a,b),c))],[use(b)],1,0)
S('0 && f();',[ES(AND(L(0),call(f)))],[],1,0)
S('1 && f();',[ES(AND(L(1),call(f)))],[do('f')],1,0)
S('if (a) 0 && f();',[IF(ES(AND(L(0),call(f))))],[ES(a)],1,0)
S('use(null ?? x); use(0 ?? x);',[use(ELSE(L(None),x)),use(ELSE(L(0),x))],[use(x),use(L(0))],1,0)
S("use('' || x); use(7 || x);",[use(OR(L(''),x)),use(OR(L(7),x))],[use(x),use(L(7))],1,0)
S('use(1 && 2 && x);',[use(AND(AND(L(1),L(2)),x))],[use(x)],1,0)
S('use(a ? 1 : 2); use(a && 1);',[use(COND(a,L(1),L(2))),use(AND(a,L(1)))],None,0,0)
NONE,HELD=N('ArrayExpression',elements=[]),N('ObjectExpression',properties=[])
S('use([] ? a : b); use({} && x); use(void 0 ? a : b);',[use(COND(NONE,a,b)),use(AND(HELD,x)),use(COND(un('void',L(0)),a,b))],[use(a),use(x),use(b)],1,0)
S('use(-1 ? a : b); use(void 0 ?? x); use([] ?? x); use({} || x);',[use(COND(un('-',L(1)),a,b)),use(ELSE(un('void',L(0)),x)),use(ELSE(NONE,x)),use(OR(HELD,x))],[use(a),use(x),use(NONE),use(HELD)],1,0)
S('(function () {}) && f(); [] || f();',[ES(AND(fn('FunctionExpression',None,[],B()),call(f))),ES(OR(NONE,call(f)))],[do('f')],1,0)
S('use([f()] ? a : b); use((f(), 1) ? a : b); whose tests act',[use(COND(N('ArrayExpression',elements=[call(f)]),a,b)),use(COND(N('SequenceExpression',expressions=[call(f),L(1)]),a,b))],[use(N('SequenceExpression',expressions=[call(f),a])),use(N('SequenceExpression',expressions=[call(f),a]))],2,0),
S('x && false ? g() : h(); use(x && false ? g() : h());',[ES(COND(AND(x,L(False)),call(g),call(I('h')))),use(COND(AND(x,L(False)),call(g),call(I('h'))))],[ES(N('SequenceExpression',expressions=[x,call(I('h'))])),use(N('SequenceExpression',expressions=[x,call(I('h'))]))],2,0),
S('(f(), true) && g(); use((f(), null) ?? g()); whose left sides act',[ES(AND(N('SequenceExpression',expressions=[call(f),L(True)]),call(g))),use(ELSE(N('SequenceExpression',expressions=[call(f),L(None)]),call(g)))],[ES(N('SequenceExpression',expressions=[call(f),call(g)])),use(N('SequenceExpression',expressions=[call(f),call(g)]))],2,0),
S('use((!f(), a)); use((f() === g(), a)); use(([f(), g()], a)); of which nobody takes the first',[use(N('SequenceExpression',expressions=[un('!',call(f)),a])),use(N('SequenceExpression',expressions=[bi('===',call(f),call(g)),a])),use(N('SequenceExpression',expressions=[N('ArrayExpression',elements=[call(f),call(g)]),a]))],[use(N('SequenceExpression',expressions=[call(f),a])),use(N('SequenceExpression',expressions=[N('SequenceExpression',expressions=[call(f),call(g)]),a])),use(N('SequenceExpression',expressions=[N('SequenceExpression',expressions=[call(f),call(g)]),a]))],1,0),
S('use((f(), !g(), a)); use((f(), [g(), 1], f() === 1, a)); of which nobody takes a part before the last',[use(N('SequenceExpression',expressions=[call(f),un('!',call(g)),a])),use(N('SequenceExpression',expressions=[call(f),N('ArrayExpression',elements=[call(g),L(1)]),bi('===',call(f),L(1)),a]))],[use(N('SequenceExpression',expressions=[call(f),call(g),a])),use(N('SequenceExpression',expressions=[call(f),call(g),call(f),a]))],1,0),
S('use((f(), a && !g(), (f(), [g()]), a)); use((f(), a ? g() : 1, a)); nor what it is of',[use(N('SequenceExpression',expressions=[call(f),AND(a,un('!',call(g))),PAREN(N('SequenceExpression',expressions=[call(f),N('ArrayExpression',elements=[call(g)])])),a])),use(N('SequenceExpression',expressions=[call(f),COND(a,call(g),L(1)),a]))],[use(N('SequenceExpression',expressions=[call(f),AND(a,call(g)),PAREN(N('SequenceExpression',expressions=[call(f),call(g)])),a])),use(N('SequenceExpression',expressions=[call(f),AND(a,call(g)),a]))],1,0),
S('use((f(), a, !g())); use((f(), !g() && a, [g()])); use((f(), a, (b, !g()))); of which the last is taken',[use(N('SequenceExpression',expressions=[call(f),a,un('!',call(g))])),use(N('SequenceExpression',expressions=[call(f),AND(un('!',call(g)),a),N('ArrayExpression',elements=[call(g)])])),use(N('SequenceExpression',expressions=[call(f),a,PAREN(N('SequenceExpression',expressions=[b,un('!',call(g))]))]))],None,0,0),
S('(f(), !g(), o.f)(); (f(), [g()], eval)(1); whose last part stays where it is',[ES(call(N('SequenceExpression',expressions=[call(f),un('!',call(g)),mem(o,f)]))),ES(call(N('SequenceExpression',expressions=[call(f),N('ArrayExpression',elements=[call(g)]),I('eval')]),L(1)))],[ES(call(N('SequenceExpression',expressions=[call(f),call(g),mem(o,f)]))),ES(call(N('SequenceExpression',expressions=[call(f),call(g),I('eval')]),L(1)))],1,0),
S('[f()] || g(); use([f()] ?? g()); whose left sides act and decide',[ES(OR(N('ArrayExpression',elements=[call(f)]),call(g))),use(ELSE(N('ArrayExpression',elements=[call(f)]),call(g)))],None,0,0),
S('([f()] ? o.f : 0)(); whose receiver is undefined',[ES(call(COND(N('ArrayExpression',elements=[call(f)]),mem(o,f),L(0))))],[ES(call(N('SequenceExpression',expressions=[call(f),mem(o,f)])))],2,0)
S('use((() => a) || b); which might take a name',[use(OR(fn('ArrowFunctionExpression',None,[],a,True),b))],None,0,0)
S('let x = []; use(x ? a : b); of whose value nothing is known',[x_is(NONE),use(COND(x,a,b))],None,0,1)
ZERO=lambda e: N('SequenceExpression',expressions=[L(0),e])
S('(1 ? o.f : 0)(); whose receiver is undefined',[ES(call(COND(L(1),mem(o,f),L(0))))],[ES(call(ZERO(mem(o,f))))],1,0)
S('([] ? o.f : 0)();',[ES(call(COND(NONE,mem(o,f),L(0))))],[ES(call(ZERO(mem(o,f))))],1,0)
S('(1 && o.f)`a`;',[ES(N('TaggedTemplateExpression',tag=AND(L(1),mem(o,f)),quasi=tmpl(['a'],[])))],[ES(N('TaggedTemplateExpression',tag=ZERO(mem(o,f)),quasi=tmpl(['a'],[])))],1,0)
S('(1 ? g : 0)();',[ES(call(COND(L(1),g,L(0))))],[do('g')],1,0)
S('use(1 ? o.f : 0);',[use(COND(L(1),mem(o,f),L(0)))],[use(mem(o,f))],1,0)
S('use(typeof (1 ? g : 0)); which throws where no g is declared',[use(un('typeof',COND(L(1),g,L(0))))],[use(un('typeof',ZERO(g)))],1,0)
S('use(typeof (0 || g)); use(typeof (0 ? 1 : g));',[use(un('typeof',OR(L(0),g))),use(un('typeof',COND(L(0),L(1),g)))],[use(un('typeof',ZERO(g))),use(un('typeof',ZERO(g)))],1,0)
S('use(delete (1 ? o.f : 0)); which deletes nothing',[use(un('delete',COND(L(1),mem(o,f),L(0))))],[use(un('delete',ZERO(mem(o,f))))],1,0)
S("(1 ? eval : 0)('x'); in parentheses, which is no direct call",[ES(call(PAREN(COND(L(1),I('eval'),L(0))),L('x')))],[ES(call(PAREN(ZERO(I('eval'))),L('x')))],1,0)
S('(1 ? (1 ? o.f : 0)().g : 0)();',[ES(call(COND(L(1),mem(call(COND(L(1),mem(o,f),L(0))),g),L(0))))],[ES(call(ZERO(mem(call(ZERO(mem(o,f))),g))))],1,0)
S('use(true ? function () {} : 0); use(0 || class {}); which might take a name',[use(COND(L(True),fn('FunctionExpression',None,[],B()),L(0))),use(OR(L(0),N('ClassExpression',id=None,superClass=None,body=N('ClassBody',body=[]))))],None,0,0)
S('function f() {} use(0 ? f() : 1);',[F_('f',[]),use(COND(L(0),call(f),L(1)))],[use(L(1))],2,0)
S("let x = 1; use(0 ? eval('') : 1);",[x_is(L(1)),use(COND(L(0),call(I('eval'),L('')),L(1)))],[use(L(1))],2,0)
S('with (o) use(true ? x : 1); in a script',[N('WithStatement',object=o,body=use(COND(L(True),x,L(1))))],[N('WithStatement',object=o,body=use(x))],1,0,'script')
S('with (o) (1 ? g : 0)(); in a script, where g may be a method of o',[N('WithStatement',object=o,body=ES(call(COND(L(1),g,L(0)))))],[N('WithStatement',object=o,body=ES(call(ZERO(g))))],1,0,'script')
WHEN=lambda test,then,other=None: N('IfStatement',test=test,consequent=then,alternate=other)
S('if (false) f(); if (true) g(); if (0) f(); else g();',[WHEN(L(False),do('f')),WHEN(L(True),do('g')),WHEN(L(0),do('f'),do('g'))],[do('g'),do('g')],1,0)
S('if (![]) { f(); } if (void 0) f(); else { g(); }',[WHEN(un('!',NONE),B(do('f'))),WHEN(un('void',L(0)),do('f'),B(do('g')))],[B(do('g'))],1,0)
S("if ('b' === 'b') f(); else g(); whose test comes to its value first",[WHEN(bi('===',L('b'),L('b')),do('f'),do('g'))],[do('f')],1,0)
S('if (a) { if (0) f(); } else if (1) g();',[WHEN(a,B(WHEN(L(0),do('f'))),WHEN(L(1),do('g')))],[WHEN(a,EMPTY,do('g'))],1,0)
S('while (a) if (0) f();',[N('WhileStatement',test=a,body=WHEN(L(0),do('f')))],[N('WhileStatement',test=a,body=EMPTY)],1,0)
S('if (1) { let x = 1; use(x); }',[WHEN(L(1),B(x_is(L(1)),use(x)))],[B(x_is(L(1)),use(x))],1,1)
S('if (0) { let t = f(); const s = [t]; class c {} g(s); }',[WHEN(L(0),B(var('let',(I('t'),call(f))),var('const',(I('s'),N('ArrayExpression',elements=[I('t')]))),N('ClassDeclaration',id=I('c'),superClass=None,body=N('ClassBody',body=[])),ES(call(g,I('s')))))],[],1,0)
S('if (1) f(); else { for (let i = 0; i; ) g(i); }',[WHEN(L(1),do('f'),B(N('ForStatement',init=var('let',(I('i'),L(0))),test=I('i'),update=None,body=ES(call(g,I('i'))))))],[do('f')],1,0)
TRY=lambda block,param,*body: N('TryStatement',block=block,handler=N('CatchClause',param=param,body=B(*body)),finalizer=None)
EACH=lambda *body: N('ForStatement',init=None,test=None,update=None,body=B(*body))
S('if (0) { var y = 1; } use(y); if (0) { try { f(); } catch (e) { var v = e; } } use(v); if (0) var w; whose branches declare names around them',[WHEN(L(0),B(var('var',(I('y'),L(1))))),use(I('y')),WHEN(L(0),B(TRY(B(do('f')),I('e'),var('var',(I('v'),I('e')))))),use(I('v')),WHEN(L(0),var('var',(I('w'),None)))],[WHEN(L(0),B(var('var',(I('y'),L(1))))),use(I('y')),WHEN(L(0),B(var('var',(I('v'),None)))),use(I('v')),WHEN(L(0),var('var',(I('w'),None)))],2,2)
S('if (0) { function z() { f(); } z(); } if (0) { var x; x = f(); for (;;) { g(x); } } which lose all that runs, and then the names',[WHEN(L(0),B(F_('z',[],do('f')),do('z'))),WHEN(L(0),B(var('var',(x,None)),ES(asg('=',x,call(f))),EACH(ES(call(g,x)))))],[],2,0)
S('if (1) f(); else { g(); var v = g(); l: while (a) { break l; } } use(v);',[WHEN(L(1),do('f'),B(do('g'),var('var',(I('v'),call(g))),N('LabeledStatement',label=I('l'),body=N('WhileStatement',test=a,body=B(N('BreakStatement',label=I('l'))))))),use(I('v'))],[WHEN(L(1),do('f'),B(var('var',(I('v'),L(0))))),use(I('v'))],1,1)
S('if (0) { for (var i = 0; i; ) { g(i); } switch (a) { case 1: f(); var w = 2; g(); } if (a) { f(); } else { g(); var z = 1; } } use(i, w, z);',[WHEN(L(0),B(N('ForStatement',init=var('var',(I('i'),L(0))),test=I('i'),update=None,body=B(ES(call(g,I('i'))))),N('SwitchStatement',discriminant=a,cases=[N('SwitchCase',test=L(1),consequent=[do('f'),var('var',(I('w'),L(2))),do('g')])]),WHEN(a,B(do('f')),B(do('g'),var('var',(I('z'),L(1))))))),do('use',I('i'),I('w'),I('z'))],[WHEN(L(0),B(var('var',(I('i'),None)),var('var',(I('w'),None)),var('var',(I('z'),None)))),do('use',I('i'),I('w'),I('z'))],2,3)
S("if (0) { eval('x'); var h = function () { g(); }; } use(h); whose function stays as it is",[WHEN(L(0),B(do('eval',L('x')),var('var',(I('h'),fn('FunctionExpression',None,[],B(do('g'))))))),use(I('h'))],[WHEN(L(0),B(var('var',(I('h'),fn('FunctionExpression',None,[],B(do('g'))))))),use(I('h'))],1,1)
S('if (a) { f(); var p = 1; } if (0) { var q = 1; } else { g(); } use(p, q); where a branch runs',[WHEN(a,B(do('f'),var('var',(I('p'),L(1))))),WHEN(L(0),B(var('var',(I('q'),L(1)))),B(do('g'))),do('use',I('p'),I('q'))],None,0,2)
IN_EACH=lambda of,left,right,*body: N('ForOfStatement' if of else 'ForInStatement',left=left,right=right,body=B(*body),**({'await':False} if of else {}))
LET_EACH=lambda x,*body: N('ForStatement',init=var('let',(x,L(0))),test=x,update=None,body=B(*body))
S('if (0) for (let i = 0; i; ) { g(i); } if (0) for (const x of a) { g(x); } if (0) for (let k in a) { let t = k; g(t); } whose heads declare names of the loops alone',[WHEN(L(0),LET_EACH(I('i'),ES(call(g,I('i'))))),WHEN(L(0),IN_EACH(True,var('const',(x,None)),a,ES(call(g,x)))),WHEN(L(0),IN_EACH(False,var('let',(I('k'),None)),a,var('let',(I('t'),I('k'))),ES(call(g,I('t')))))],[],1,0)
S('if (0) { var y = 1; for (let i = 0; i; ) { g(i); } } use(y); if (0) for (var v of a) { g(v); } use(v);',[WHEN(L(0),B(var('var',(I('y'),L(1))),LET_EACH(I('i'),ES(call(g,I('i')))))),use(I('y')),WHEN(L(0),IN_EACH(True,var('var',(I('v'),None)),a,ES(call(g,I('v'))))),use(I('v'))],[WHEN(L(0),B(var('var',(I('y'),L(1))))),use(I('y')),WHEN(L(0),{**IN_EACH(True,var('var',(I('v'),None)),a),'body':EMPTY}),use(I('v'))],2,2)
S('export function h() { return a; for (let i = 0; i; ) { g(i); } }',[export(F_('h',[],RETURN(a),LET_EACH(I('i'),ES(call(g,I('i'))))))],[export(F_('h',[],RETURN(a)))],1,0)
S('export function h() { return a; for (b of c) { g(b); } for (const x in a) { g(x); } debugger; for (var v of a) { g(v); } }',[export(F_('h',[],RETURN(a),IN_EACH(True,b,c,ES(call(g,b))),IN_EACH(False,var('const',(x,None)),a,ES(call(g,x))),DEBUGGER,IN_EACH(True,var('var',(I('v'),None)),a,ES(call(g,I('v'))))))],[export(F_('h',[],RETURN(a),IN_EACH(True,var('var',(I('v'),None)),a,ES(call(g,I('v'))))))],1,1)
S('if (0) { var y = 1; with (a) { g(); } for (var k in a) { debugger; g(); } } use(y, k); in a script',[WHEN(L(0),B(var('var',(I('y'),L(1))),N('WithStatement',object=a,body=B(ES(call(g)))),IN_EACH(False,var('var',(I('k'),None)),a,DEBUGGER,ES(call(g))))),do('use',I('y'),I('k'))],[WHEN(L(0),B(var('var',(I('y'),L(1))),var('var',(I('k'),None)))),do('use',I('y'),I('k'))],2,2,'script')
S('if (0) { for (var i = 0, j = 1; i < j; i++) f(); } use(i, j); of which a declaration is left',[WHEN(L(0),B(N('ForStatement',init=var('var',(I('i'),L(0)),(I('j'),L(1))),test=bi('<',I('i'),I('j')),update=N('UpdateExpression',operator='++',prefix=False,argument=I('i')),body=do('f')))),do('use',I('i'),I('j'))],[WHEN(L(0),B(var('var',(I('i'),None),(I('j'),None)))),do('use',I('i'),I('j'))],1,2)
S('if (0) { l: while (a) { var x = f(); if (b) { var y; break l; } } } use(x, y); with what stands further in',[WHEN(L(0),B(N('LabeledStatement',label=I('l'),body=N('WhileStatement',test=a,body=B(x_is(call(f),'var'),WHEN(b,B(var('var',(I('y'),None)),N('BreakStatement',label=I('l'))))))))),do('use',x,I('y'))],[WHEN(L(0),B(var('var',(x,None),(I('y'),None)))),do('use',x,I('y'))],2,2)
S('if (0) { while (a) { var [x] = f(); } } use(x); of a pattern it is not',[WHEN(L(0),B(N('WhileStatement',test=a,body=B(var('var',(N('ArrayPattern',elements=[x]),call(f))))))),use(x)],[WHEN(L(0),B(N('WhileStatement',test=a,body=B(var('var',(N('ArrayPattern',elements=[x]),L(0))))))),use(x)],1,1)
S('if (0) { try { f(); } catch (e) { g(e); } } if (0) try { let x = f(); g(x); } catch { const y = f(); g(y); } finally { g(); }',[WHEN(L(0),B(TRY(B(do('f')),I('e'),ES(call(g,I('e')))))),WHEN(L(0),{**TRY(B(x_is(call(f)),ES(call(g,x))),None,var('const',(I('y'),call(f))),ES(call(g,I('y')))),'finalizer':B(do('g'))})],[],1,0)
S('if (0) { try { f(); } catch ({ a, b: [c] = d() }) { g(a, c); } } of a pattern',[WHEN(L(0),B(TRY(B(do('f')),N('ObjectPattern',properties=[prop(a,a,shorthand=True),prop(b,N('AssignmentPattern',left=N('ArrayPattern',elements=[c]),right=call(I('d'))))]),ES(call(g,a,c)))))],[],1,0)
S('export function h() { return; try { f(); } catch (e) { let x = e; g(x); } }',[export(F_('h',[],RETURN(None),TRY(B(do('f')),I('e'),x_is(I('e')),ES(call(g,x)))))],[export(F_('h',[],RETURN(None)))],1,0)
S('if (1) while (a) f(); if (1) l: f(); which may stand elsewhere than they did',[WHEN(L(1),N('WhileStatement',test=a,body=do('f'))),WHEN(L(1),N('LabeledStatement',label=I('l'),body=do('f')))],None,0,0)
S('if (f()) g(); if (!f()) g(); if ([f()]) g(); whose tests act',[WHEN(call(f),do('g')),WHEN(un('!',call(f)),do('g')),WHEN(N('ArrayExpression',elements=[call(f)]),do('g'))],None,0,0)
S('function h() {} if (0) h();',[F_('h',[]),WHEN(L(0),do('h'))],[],2,0)
S('export function h() { if (0) return 1; return 2; }',[export(F_('h',[],WHEN(L(0),RETURN(L(1))),RETURN(L(2))))],[export(F_('h',[],RETURN(L(2))))],1,0)
S('if (0) f(); in a script',[WHEN(L(0),do('f'))],[],1,0,'script')
BREAK=lambda l=None: N('BreakStatement',label=l)
CLASS=lambda name: N('ClassDeclaration',id=I(name),superClass=None,body=N('ClassBody',body=[]))
S('export function h() { if (a) { return 1; g(); } return f(); g(); for (;;) { g(); } { g(); } }',[export(F_('h',[],WHEN(a,B(RETURN(L(1)),do('g'))),RETURN(call(f)),do('g'),EACH(do('g')),B(do('g'))))],[export(F_('h',[],WHEN(a,B(RETURN(L(1)))),RETURN(call(f))))],1,0)
S('l: for (;;) { break l; f(); let x = g(); h(); } for (;;) { if (a) continue; else break; f(); }',[LABEL('l',EACH(BREAK(I('l')),do('f'),x_is(call(g)),do('h'))),EACH(WHEN(a,N('ContinueStatement',label=None),BREAK()),do('f'))],[LABEL('l',EACH(BREAK(I('l')))),EACH(WHEN(a,N('ContinueStatement',label=None),BREAK()))],1,0)
S('export function h() { if (1) { return 1; } g(); for (;;) { { { break; } } f(); } }',[export(F_('h',[],WHEN(L(1),B(RETURN(L(1)))),do('g'),EACH(B(B(BREAK())),do('f'))))],[export(F_('h',[],B(RETURN(L(1)))))],1,0)
S('for (;;) { { f(); { break; } } var v = g(); h(v); { h(); } } l: { break l; } f();',[EACH(B(do('f'),B(BREAK())),var('var',(I('v'),call(g))),do('h',I('v')),B(do('h'))),LABEL('l',B(BREAK(I('l')))),do('f')],[EACH(B(do('f'),B(BREAK()))),do('f')],2,0)
S('export function h() { if (a) return 1; else { return 2; } f(); } for (;;) { if (a) { if (b) break; else continue; } else throw c; f(); }',[export(F_('h',[],WHEN(a,RETURN(L(1)),B(RETURN(L(2)))),do('f'))),EACH(WHEN(a,B(WHEN(b,BREAK(),N('ContinueStatement',label=None))),N('ThrowStatement',argument=c)),do('f'))],[export(F_('h',[],WHEN(a,RETURN(L(1)),B(RETURN(L(2)))))),EACH(WHEN(a,B(WHEN(b,BREAK(),N('ContinueStatement',label=None))),N('ThrowStatement',argument=c)))],1,0)
S('export function h() { if (a) { return 1; } else f(); g(); } for (;;) { if (a) break; f(); } where one branch goes on',[export(F_('h',[],WHEN(a,B(RETURN(L(1))),do('f')),do('g'))),EACH(WHEN(a,BREAK()),do('f'))],None,0,0)
S('{} { ; {} } l: {} m: n: ; f();',[B(),B(EMPTY,B()),LABEL('l',B()),LABEL('m',LABEL('n',EMPTY)),do('f')],[do('f')],1,0)
S('{ let x = 1; } l: { { 1; } } {} in a script',[B(x_is(L(1))),LABEL('l',B(B(ES(L(1))))),B()],[],1,0,'script')
S('{ let x = 1; } { function g() {} } l: { { 1; } }',[B(x_is(L(1))),B(F_('g',[])),LABEL('l',B(B(ES(L(1)))))],[],1,0)
S('{ let x; { let y = x; } }',[B(x_is(None),B(var('let',(I('y'),x))))],[],2,0)
S('if (1) {} else f(); if (0) f(); else { 1; }',[WHEN(L(1),B(),do('f')),WHEN(L(0),do('f'),B(ES(L(1))))],[],1,0)
S('export function h() { {} return; {} } switch (a) { case 1: {} break; default: { ; } }',[export(F_('h',[],B(),RETURN(None),B())),N('SwitchStatement',discriminant=a,cases=[N('SwitchCase',test=L(1),consequent=[B(),BREAK()]),N('SwitchCase',test=None,consequent=[B(EMPTY)])])],[export(F_('h',[],RETURN(None))),N('SwitchStatement',discriminant=a,cases=[N('SwitchCase',test=L(1),consequent=[BREAK()]),N('SwitchCase',test=None,consequent=[])])],1,0)
S('{ f(); } { { f(); } } m: while (a) ; whose blocks hold something',[B(do('f')),B(B(do('f'))),LABEL('m',N('WhileStatement',test=a,body=EMPTY))],None,0,0)
S('if (a) {} else {} while (b) {} whose blocks stand in no list',[IF(B(),B()),N('WhileStatement',test=b,body=B())],[ES(a),N('WhileStatement',test=b,body=EMPTY)],1,0)
S('if (0) { var x = f(); let y = g(x); { const z = new h(); use(z); } use(y); } use(x); whose values are never given',[WHEN(L(0),B(var('var',(x,call(f))),var('let',(I('y'),call(g,x))),B(var('const',(I('z'),N('NewExpression',callee=I('h'),arguments=[]))),use(I('z'))),use(I('y')))),use(x)],[WHEN(L(0),B(var('var',(x,L(0))))),use(x)],2,1)
S("if (false) { var w = h('w'); w(f()); } else g();",[WHEN(L(False),B(var('var',(I('w'),call(I('h'),L('w')))),ES(call(I('w'),call(f)))),do('g'))],[do('g')],2,0)
S('if (0) var x = f(), y = [g()]; else for (;;) g(); use(x); whose declaration stands in no list',[WHEN(L(0),var('var',(x,call(f)),(I('y'),N('ArrayExpression',elements=[call(g)]))),EACH(do('g'))),use(x)],[WHEN(L(0),var('var',(x,L(0)),(I('y'),L(0))),EACH(do('g'))),use(x)],1,1)
S('if (0) for (var x = f(), y = x; ;) g(y); use(x);',[WHEN(L(0),N('ForStatement',init=var('var',(x,call(f)),(I('y'),x)),test=None,update=None,body=ES(call(g,I('y'))))),use(x)],[WHEN(L(0),N('ForStatement',init=var('var',(x,L(0)),(I('y'),x)),test=None,update=None,body=ES(call(g,I('y'))))),use(x)],1,3)
S('if (0) { var x = a, y = 1, z = function () { return f(); }; } use(x, y, z); which are no calls',[WHEN(L(0),B(var('var',(x,a),(I('y'),L(1)),(I('z'),fn('FunctionExpression',None,[],B(RETURN(call(f)))))))),ES(call(I('use'),x,I('y'),I('z')))],None,0,3)
S('if (a) { var x = f(); } if (1) { var y = f(); } else { var z = f(); } use(x, y, z);',[WHEN(a,B(var('var',(x,call(f))))),WHEN(L(1),B(var('var',(I('y'),call(f)))),B(var('var',(I('z'),call(f))))),ES(call(I('use'),x,I('y'),I('z')))],[WHEN(a,B(var('var',(x,call(f))))),WHEN(L(1),B(var('var',(I('y'),call(f)))),B(var('var',(I('z'),L(0))))),ES(call(I('use'),x,I('y'),I('z')))],1,3)
S("export function h() { if (0) { var x = eval('y'); } let y = 1; return x; }",[export(F_('h',[],WHEN(L(0),B(var('var',(x,call(I('eval'),L('y')))))),var('let',(I('y'),L(1))),RETURN(x)))],[export(F_('h',[],WHEN(L(0),B(var('var',(x,L(0))))),RETURN(x)))],2,1)
S('if (0) { var x = f(); } use(x); in a script',[WHEN(L(0),B(var('var',(x,call(f))))),use(x)],[WHEN(L(0),B(var('var',(x,L(0))))),use(x)],1,1,'script')
S('if (x && false) { g(); let y = g(); use(y); } if (f() || 1) g(); else { h(); var v = h(); } use(v); whose tests act',[WHEN(AND(x,L(False)),B(do('g'),var('let',(I('y'),call(g))),use(I('y')))),WHEN(OR(call(f),L(1)),do('g'),B(do('h'),var('var',(I('v'),call(I('h')))))),use(I('v'))],[ES(x),WHEN(OR(call(f),L(1)),do('g'),B(var('var',(I('v'),L(0))))),use(I('v'))],3,1)
S('if ([f()]) g(); else { h(); } if (f(), 0) { g(); } else h(); if (void f()) { g(); } whose tests act',[WHEN(N('ArrayExpression',elements=[call(f)]),do('g'),B(do('h'))),WHEN(N('SequenceExpression',expressions=[call(f),L(0)]),B(do('g')),do('h')),WHEN(un('void',call(f)),B(do('g')))],[WHEN(N('ArrayExpression',elements=[call(f)]),do('g')),WHEN(N('SequenceExpression',expressions=[call(f),L(0)]),EMPTY,do('h')),do('f')],3,0)
S('let x = 1; export function h(p) { if (p && false) { use(x); } if (f() && 0) g(); } where a name goes with it',[x_is(L(1)),export(F_('h',['p'],WHEN(AND(I('p'),L(False)),B(use(x))),WHEN(AND(call(f),L(0)),do('g'))))],[export(F_('h',['p'],WHEN(AND(call(f),L(0)),do('g'))))],2,0)
WHILE=lambda test,*body: N('WhileStatement',test=test,body=B(*body))
LOOP=lambda init,test,*body: N('ForStatement',init=init,test=test,update=None,body=B(*body))
FINALLY=lambda block,*body: N('TryStatement',block=block,handler=None,finalizer=B(*body))
S('while (0) f(); for (; null;) { g(); let x = f(); } l: m: while (![]) { continue l; } f();',[WHILE(L(0),do('f')),LOOP(None,L(None),do('g'),x_is(call(f))),LABEL('l',LABEL('m',WHILE(un('!',N('ArrayExpression',elements=[])),N('ContinueStatement',label=I('l'))))),do('f')],[do('f')],1,0)
S('try {} catch (e) { f(e); } try { ; } catch { g(); } finally { {} } l: try {} finally {}',[TRY(B(),I('e'),ES(call(f,I('e')))),{**TRY(B(EMPTY),None,do('g')),'finalizer':B(B())},LABEL('l',FINALLY(B()))],[],1,0)
S('while (a) f(); do f(); while (0); for (f(); 0;) g(); for (let x = f(); 0;) g(); try { f(); } catch (e) {}',[WHILE(a,do('f')),N('DoWhileStatement',body=do('f'),test=L(0)),LOOP(call(f),L(0),do('g')),LOOP(x_is(call(f)),L(0),do('g')),TRY(B(do('f')),I('e'))],None,0,0)
S('if (a) while (0) f(); which stands in no list',[WHEN(a,WHILE(L(0),do('f')))],[ES(a)],1,0)
S('while (0) { var x = 1; } use(x); while (0) { var y = 1; }',[WHILE(L(0),var('var',(x,L(1)))),use(x),WHILE(L(0),var('var',(I('y'),L(1))))],[WHILE(L(0),var('var',(x,L(1)))),use(x)],1,1)
S('let x = 1; while (0) { use(x); } for (;;) { for (; 0;) continue; }',[x_is(L(1)),WHILE(L(0),use(x)),EACH(LOOP(None,L(0),N('ContinueStatement',label=None)))],[{**EACH(),'body':EMPTY}],2,0)
S("export function h() { while (0) { eval('x'); } let x = 1; }",[export(F_('h',[],WHILE(L(0),do('eval',L('x'))),x_is(L(1))))],[export(F_('h',[]))],2,0)
S('while (0) f(); in a script',[WHILE(L(0),do('f'))],[],1,0,'script')
HANDLED=lambda block,handler,*body: {**TRY(block,I('e'),*handler),'finalizer':B(*body)}
S('try {} finally { f(); } try { ; } catch (e) { g(); } finally { f(); } l: try {} finally { f(); }',[FINALLY(B(),do('f')),HANDLED(B(EMPTY),[do('g')],do('f')),LABEL('l',FINALLY(B(),do('f')))],[B(do('f')),B(do('f')),LABEL('l',B(do('f')))],1,0)
S('if (a) try {} finally { f(); } else try {} catch (e) { g(); } while (a) try {} catch (e) {}',[WHEN(a,FINALLY(B(),do('f')),TRY(B(),I('e'),do('g'))),N('WhileStatement',test=a,body=TRY(B(),I('e')))],[WHEN(a,B(do('f'))),N('WhileStatement',test=a,body=EMPTY)],1,0)
S('try {} finally { while (a) f(); } try {} finally { l: for (;;) f(); } whose loops labels around would reach',[FINALLY(B(),N('WhileStatement',test=a,body=do('f'))),FINALLY(B(),LABEL('l',N('ForStatement',init=None,test=None,update=None,body=do('f'))))],None,0,0)
S('try {} catch (e) { var x = f(); } finally { g(); } use(x);',[HANDLED(B(),[var('var',(x,call(f)))],do('g')),use(x)],None,0,1)
S('export function h() { try {} finally { return 1; } f(); }',[export(F_('h',[],FINALLY(B(),RETURN(L(1))),do('f')))],[export(F_('h',[],B(RETURN(L(1)))))],1,0)
S('try {} finally {} try { let y; } catch (e) {} finally { ; } try { f(); } finally {}',[FINALLY(B()),HANDLED(B(var('let',(I('y'),None))),[],EMPTY),FINALLY(B(do('f')))],[FINALLY(B(do('f')))],1,0)
S('let x = 1; try {} catch (e) { use(x); } finally { f(); }',[x_is(L(1)),HANDLED(B(),[use(x)],do('f'))],[B(do('f'))],2,0)
S("export function h() { let x = 1; try {} catch (e) { eval('x'); } finally { f(); } }",[export(F_('h',[],x_is(L(1)),HANDLED(B(),[do('eval',L('x'))],do('f'))))],[export(F_('h',[],B(do('f'))))],2,0)
S('try {} finally { f(); } in a script',[FINALLY(B(),do('f'))],[B(do('f'))],1,0,'script')
JUMP=lambda l='l': BREAK(I(l))
S('l: break l; l: { break l; f(); } l: m: { break l; } m: l: break m; f();',[LABEL('l',JUMP()),LABEL('l',B(JUMP(),do('f'))),LABEL('l',LABEL('m',B(JUMP()))),LABEL('m',LABEL('l',JUMP('m'))),do('f')],[do('f')],1,0)
S('l: { { break l; } f(); } l: { m: { break l; } f(); } l: { ; break l; } l: { break l; let y = f(); }',[LABEL('l',B(B(JUMP()),do('f'))),LABEL('l',B(LABEL('m',B(JUMP())),do('f'))),LABEL('l',B(EMPTY,JUMP())),LABEL('l',B(JUMP(),var('let',(I('y'),call(f)))))],[],1,0)
S('l: { f(); break l; } l: { m: { break m; f(); } g(); } l: { if (a) break l; f(); } l: try { break l; } finally { f(); }',[LABEL('l',B(do('f'),JUMP())),LABEL('l',B(LABEL('m',B(JUMP('m'),do('f'))),do('g'))),LABEL('l',B(IF(JUMP()),do('f'))),LABEL('l',FINALLY(B(JUMP()),do('f')))],[LABEL('l',B(do('f'),JUMP())),LABEL('l',B(do('g'))),LABEL('l',B(IF(JUMP()),do('f'))),LABEL('l',FINALLY(B(JUMP()),do('f')))],1,0)
S('l: for (;;) { m: { break l; } f(); m: { break m; } }',[LABEL('l',EACH(LABEL('m',B(JUMP())),do('f'),LABEL('m',B(JUMP('m')))))],[LABEL('l',EACH(LABEL('m',B(JUMP())),do('f')))],1,0)
S('l: { break l; var x = f(); } use(x); whose name stays around',[LABEL('l',B(JUMP(),var('var',(x,call(f))))),use(x)],None,0,1)
S('l: { break l; function g() {} g(); } l: { break l; class c { static { f(); } } }',[LABEL('l',B(JUMP(),F_('g',[]),do('g'))),LABEL('l',B(JUMP(),N('ClassDeclaration',id=I('c'),superClass=None,body=N('ClassBody',body=[N('StaticBlock',body=[do('f')])]))))],[],2,0)
S('if (a) l: { break l; } which stands in no list',[IF(LABEL('l',B(JUMP())))],[ES(a)],1,0)
S('if (f()) {} else g(); while (f()) {} do { {} } while (f()); for (;;) l: {} for (const x of f()) {} for (x in a) { ; }',[WHEN(call(f),B(),do('g')),N('WhileStatement',test=call(f),body=B()),N('DoWhileStatement',body=B(B()),test=call(f)),{**EACH(),'body':LABEL('l',B())},IN_EACH(True,var('const',(x,None)),call(f)),IN_EACH(False,x,a,EMPTY)],[WHEN(call(f),EMPTY,do('g')),N('WhileStatement',test=call(f),body=EMPTY),N('DoWhileStatement',body=EMPTY,test=call(f)),{**EACH(),'body':EMPTY},{**IN_EACH(True,var('const',(x,None)),call(f)),'body':EMPTY},{**IN_EACH(False,x,a),'body':EMPTY}],1,0)
S('with (a) {} in a script',[N('WithStatement',object=a,body=B())],[N('WithStatement',object=a,body=EMPTY)],1,0,'script')
S('if (a) l: m: try { ; } catch { f(); } else for (; 0;) f(); l: while (a) { 1; }',[IF(LABEL('l',LABEL('m',TRY(B(EMPTY),None,do('f')))),LOOP(None,L(0),do('f'))),LABEL('l',WHILE(a,ES(L(1))))],[ES(a),LABEL('l',N('WhileStatement',test=a,body=EMPTY))],1,0)
S('if (a) while (0) { var x = 1; } use(x); whose branch declares a name around it',[WHEN(a,WHILE(L(0),var('var',(x,L(1))))),use(x)],None,0,1)
S('if (a) { f(); } else { let y = f(); } try { f(); } catch {} finally {} whose blocks hold something, or are asked for',[IF(B(do('f')),B(var('let',(I('y'),call(f))))),{**TRY(B(do('f')),None),'finalizer':B()}],[IF(B(do('f')),B(do('f'))),{**TRY(B(do('f')),None),'finalizer':B()}],1,0)
S('let x = 1; if (a) while (0) { use(x); } where a name goes with it',[x_is(L(1)),WHEN(a,WHILE(L(0),use(x)))],[ES(a)],2,0)
S("export function h() { let x = 1; if (a) while (0) { eval('x'); } }",[export(F_('h',[],x_is(L(1)),WHEN(a,WHILE(L(0),do('eval',L('x'))))))],[export(F_('h',[],ES(a)))],2,0)
S('if (a && 0) { f(); } whose branch holds nothing then',[WHEN(AND(a,L(0)),B(do('f')))],[ES(a)],3,0)
S('if (a) f(); else ; if (a) { f(); } else { ; } if (a) f(); else if (b) g(); else {} whose last branches are empty',[WHEN(a,do('f'),EMPTY),WHEN(a,B(do('f')),B(EMPTY)),WHEN(a,do('f'),WHEN(b,do('g'),B()))],[WHEN(a,do('f')),WHEN(a,B(do('f'))),WHEN(a,do('f'),WHEN(b,do('g')))],1,0)
S('if (a) f(); else if (b) g(); else if (0) f(); whose alternates come to nothing',[WHEN(a,do('f'),WHEN(b,do('g'),WHEN(L(0),do('f'))))],[WHEN(a,do('f'),WHEN(b,do('g')))],1,0)
S('if (a) if (b) f(); else ; else g(); while (a) if (b) f(); else ; whose alternates might be taken for those of others',[WHEN(a,WHEN(b,do('f'),EMPTY),do('g')),N('WhileStatement',test=a,body=WHEN(b,do('f'),EMPTY))],None,0,0)
S('if (f()) ; if (a[b]) {} else ; for (;;) if (f()) { 1; } else { ; } whose branches are empty',[WHEN(call(f),EMPTY),WHEN(mem(a,b),B(),EMPTY),{**EACH(),'body':WHEN(call(f),B(ES(L(1))),B(EMPTY))}],[do('f'),ES(mem(a,b)),{**EACH(),'body':do('f')}],1,0)
S('let x = 1; if (x) {} if (x === 1) ; else {} whose tests are silent',[x_is(L(1)),WHEN(x,B()),WHEN(bi('===',x,L(1)),EMPTY,B())],[],2,0)
S('if (() => f()) ; else { g(); } whose test is a function',[WHEN(ARROW(do('f')),EMPTY,B(do('g')))],[],1,0)
S('if (f()) { var x; } if (f()) ; else g(); use(x); whose branches hold something',[WHEN(call(f),B(var('var',(x,None)))),WHEN(call(f),EMPTY,do('g')),use(x)],None,0,1)
S('let x = 1; l: { break l; let y = x; } export function h() { l: { break l; eval(x); } }',[x_is(L(1)),LABEL('l',B(JUMP(),var('let',(I('y'),x)))),export(F_('h',[],LABEL('l',B(JUMP(),do('eval',x)))))],[export(F_('h',[]))],2,0)
S('l: { break l; f(); } l: { break l; var x; } in a script',[LABEL('l',B(JUMP(),do('f'))),LABEL('l',B(JUMP(),var('var',(x,None))))],[LABEL('l',B(JUMP(),var('var',(x,None))))],1,0,'script')
S('class c { static { {} } } use(c);',[N('ClassDeclaration',id=I('c'),superClass=None,body=N('ClassBody',body=[N('StaticBlock',body=[B()])])),use(I('c'))],[N('ClassDeclaration',id=I('c'),superClass=None,body=N('ClassBody',body=[N('StaticBlock',body=[])])),use(I('c'))],1,1)
S('export function h() { return k(); function k() {} var y = 1; { var z; } use(y, z); class c {} }',[export(F_('h',[],RETURN(call(I('k'))),F_('k',[]),var('var',(I('y'),L(1))),B(var('var',(I('z'),None))),ES(call(I('use'),I('y'),I('z'))),CLASS('c')))],[export(F_('h',[],RETURN(call(I('k'))),F_('k',[]),CLASS('c')))],2,1)
S('throw f(); g(); export let x = 1; behind a jump of a module',[N('ThrowStatement',argument=call(f)),do('g'),export(x_is(L(1)))],[N('ThrowStatement',argument=call(f)),export(x_is(L(1)))],1,0)
S("function h() {} export function k() { let x = 1; return; h(); eval('x'); }",[F_('h',[]),export(F_('k',[],x_is(L(1)),RETURN(None),do('h'),do('eval',L('x'))))],[export(F_('k',[],RETURN(None)))],2,0)
S('switch (a) { case 1: f(); break; g(); default: throw a; { let x = g(); } } in a script',[N('SwitchStatement',discriminant=a,cases=[N('SwitchCase',test=L(1),consequent=[do('f'),BREAK(),do('g')]),N('SwitchCase',test=None,consequent=[N('ThrowStatement',argument=a),B(x_is(call(g)))])])],[N('SwitchStatement',discriminant=a,cases=[N('SwitchCase',test=L(1),consequent=[do('f'),BREAK()]),N('SwitchCase',test=None,consequent=[N('ThrowStatement',argument=a)])])],1,0,'script')
S('export default true ? a : b;',[N('ExportDefaultDeclaration',declaration=COND(L(True),a,b))],[N('ExportDefaultDeclaration',declaration=a)],1,0)
S('let x = 1; export function h() { return 1 ? x : 0; }',[x_is(L(1)),export(F_('h',[],RETURN(COND(L(1),x,L(0)))))],[x_is(L(1)),export(F_('h',[],RETURN(x)))],1,1)

SAME=lambda l,r,o='===': N('BinaryExpression',operator=o,left=l,right=r)
NOT=lambda e: un('!',e)
SEQ=lambda *es: N('SequenceExpression',expressions=list(es))
FOR=lambda update,body: N('ForStatement',init=None,test=None,update=update,body=body)
def nots(n,e):
 for i in range(n): e=NOT(e)
 return e
S('!(f() === 2);',[ES(NOT(PAREN(SAME(call(f),L(2)))))],[ES(PAREN(call(f)))],2,0)
S('!(f() === 2); whose parentheses the parser left out',[ES(NOT(SAME(call(f),L(2))))],[do('f')],1,0)
S('120 operators ! before f()',[ES(nots(120,call(f)))],[do('f')],1,0)
S('f() == 2; null !== f(); f() < 1; 1 >= f();',[ES(SAME(call(f),L(2),'==')),ES(SAME(L(None),call(f),'!==')),ES(SAME(call(f),L(1),'<')),ES(SAME(L(1),call(f),'>='))],[do('f'),do('f'),do('f'),do('f')],1,0)
S('typeof f(); void f(); typeof o.f;',[ES(un('typeof',call(f))),ES(un('void',call(f))),ES(un('typeof',mem(o,f)))],[do('f'),do('f'),ES(mem(o,f))],1,0)
S('typeof g; which throws nothing where no g is declared',[ES(un('typeof',g))],[],1,0)
S('f() && 1; f() || (() => a); f() ?? [];',[ES(AND(call(f),L(1))),ES(OR(call(f),fn('ArrowFunctionExpression',None,[],a,True))),ES(ELSE(call(f),N('ArrayExpression',elements=[])))],[do('f'),do('f'),do('f')],1,0)
S('f() ? 1 : null;',[ES(COND(call(f),L(1),L(None)))],[do('f')],1,0)
S('a && f(); f() ? a : g(); whose sides may both act',[ES(AND(a,call(f))),ES(COND(call(f),a,call(g)))],None,0,0)
S('+f(); -f(); f() + 1; f() in 1; which may act themselves',[ES(un('+',call(f))),ES(un('-',call(f))),ES(SAME(call(f),L(1),'+')),ES(SAME(call(f),L(1),'in'))],None,0,0)
S('use(!f()); use(f() === 1); whose values are taken',[use(NOT(call(f))),use(SAME(call(f),L(1)))],None,0,0)
S('a && !f(); a ? !f() : f() === 1; a, !f();',[ES(AND(a,NOT(call(f)))),ES(COND(a,NOT(call(f)),SAME(call(f),L(1)))),ES(SEQ(a,NOT(call(f))))],[ES(AND(a,call(f))),ES(COND(a,call(f),call(f))),ES(SEQ(a,call(f)))],1,0)
S('use((a, !f())); !f() && a; whose values may be used',[use(SEQ(a,NOT(call(f)))),ES(AND(NOT(call(f)),a))],None,0,0)
S('for (;; !f()) g();',[FOR(NOT(call(f)),do('g'))],[FOR(call(f),do('g'))],1,0)
S('let x = 1; x === 2;',[x_is(L(1)),ES(SAME(x,L(2)))],[],2,0)
S('!eval("x"); which is no other call then',[ES(NOT(call(I('eval'),L('x'))))],[ES(call(I('eval'),L('x')))],1,0)
S('!(class extends f() {}); which stays a class that is an operand',[ES(NOT(N('ClassExpression',id=None,superClass=call(f),body=N('ClassBody',body=[]))))],None,0,0)
S('!f(); in a script',[ES(NOT(call(f)))],[do('f')],1,0,'script')
S('export default !f(); return !f(); whose values are taken',[N('ExportDefaultDeclaration',declaration=NOT(call(f))),export(F_('h',[],RETURN(NOT(call(f)))))],None,0,0)

ARR=lambda *es: N('ArrayExpression',elements=list(es))
OF=lambda e: N('SpreadElement',argument=e)
S('[f(), 1, g()];',[ES(ARR(call(f),L(1),call(g)))],[ES(SEQ(call(f),call(g)))],1,0)
S('[f(), 1]; [, f()]; [function () {}, f()]; 1, f();',[ES(ARR(call(f),L(1))),ES(ARR(None,call(f))),ES(ARR(fn('FunctionExpression',None,[],B()),call(f))),ES(SEQ(L(1),call(f)))],[do('f'),do('f'),do('f'),do('f')],1,0)
S('1, f(), 2, g(), 3;',[ES(SEQ(L(1),call(f),L(2),call(g),L(3)))],[ES(SEQ(call(f),call(g)))],1,0)
S('[f(), a];',[ES(ARR(call(f),a))],[ES(SEQ(call(f),a))],1,0)
S('[[f()], g()];',[ES(ARR(ARR(call(f)),call(g)))],[ES(SEQ(call(f),call(g)))],2,0)
S('[!f(), 1];',[ES(ARR(NOT(call(f)),L(1)))],[do('f')],2,0)
S('a && [f(), 1];',[ES(AND(a,ARR(call(f),L(1))))],[ES(AND(a,call(f)))],1,0)
S('for (;; 1, f()) g();',[FOR(SEQ(L(1),call(f)),do('g'))],[FOR(call(f),do('g'))],1,0)
S('[...f(), g()]; f(), g();',[ES(ARR(OF(call(f)),call(g))),ES(SEQ(call(f),call(g)))],None,0,0)
S('[f(), 1, ...g()]; [, ...g()]; [...[1], f()]; [...a, ...[], 1]; where something is spread',[ES(ARR(call(f),L(1),OF(call(g)))),ES(ARR(None,OF(call(g)))),ES(ARR(OF(ARR(L(1))),call(f))),ES(ARR(OF(a),OF(ARR()),L(1)))],[ES(ARR(call(f),OF(call(g)))),ES(ARR(OF(call(g)))),do('f'),ES(ARR(OF(a)))],1,0)
S('use([1, ...g()]); [...[f(), 1]]; [!f(), ...g()]; whose value is taken, or all of which acts',[use(ARR(L(1),OF(call(g)))),ES(ARR(OF(ARR(call(f),L(1))))),ES(ARR(NOT(call(f)),OF(call(g))))],None,0,0)
S('use([f(), 1]); use((f(), 1)); whose values are taken',[use(ARR(call(f),L(1))),use(SEQ(call(f),L(1)))],None,0,0)
S("(1, o.f)(); (0, eval)('x'); which call by another reference",[ES(call(SEQ(L(1),mem(o,f)))),ES(call(SEQ(L(0),I('eval')),L('x')))],[ES(call(SEQ(L(0),mem(o,f)))),ES(call(SEQ(L(0),I('eval')),L('x')))],1,0)
S('[class extends f() {}, 1];',[ES(ARR(N('ClassExpression',id=None,superClass=call(f),body=N('ClassBody',body=[])),L(1)))],None,0,0)

S('a ? f() : 1; a ? null : f();',[ES(COND(a,call(f),L(1))),ES(COND(a,L(None),call(f)))],[ES(AND(a,call(f))),ES(OR(a,call(f)))],1,0)
S('a ? (b ? f() : 1) : 2;',[ES(COND(a,COND(b,call(f),L(1)),L(2)))],[ES(AND(a,AND(b,call(f))))],1,0)
S('use(a ? f() : 1); whose value is taken',[use(COND(a,call(f),L(1)))],None,0,0)
S('use((1, f())); use((1, 2, f()));',[use(SEQ(L(1),call(f))),use(SEQ(L(1),L(2),call(f)))],[use(call(f)),use(call(f))],1,0)
S('use((f(), 1, a)); use((1, f(), 2));',[use(SEQ(call(f),L(1),a)),use(SEQ(L(1),call(f),L(2)))],[use(SEQ(call(f),a)),use(SEQ(call(f),L(2)))],1,0)
S('(1, g)(); (1, 2, o.f)(); typeof (1, g);',[ES(call(SEQ(L(1),g))),ES(call(SEQ(L(1),L(2),mem(o,f)))),use(un('typeof',SEQ(L(1),g)))],[do('g'),ES(call(SEQ(L(0),mem(o,f)))),use(un('typeof',SEQ(L(0),g)))],1,0)
S('use((1, function () {})); which might take a name',[use(SEQ(L(1),fn('FunctionExpression',None,[],B())))],[use(SEQ(L(0),fn('FunctionExpression',None,[],B())))],1,0)
S('(0, o.f)(); typeof (0, g); delete (0, o.f); which have their zero',[ES(call(SEQ(L(0),mem(o,f)))),use(un('typeof',SEQ(L(0),g))),ES(un('delete',SEQ(L(0),mem(o,f))))],None,0,0)
S("(1, eval)('x'); delete (null, o.f); ((1), o.f)(); ((0, o.f))();",[ES(call(SEQ(L(1),I('eval')),L('x'))),ES(un('delete',SEQ(L(None),mem(o,f)))),ES(call(SEQ(PAREN(L(1)),mem(o,f)))),ES(call(PAREN(SEQ(L(0),mem(o,f)))))],[ES(call(SEQ(L(0),I('eval')),L('x'))),ES(un('delete',SEQ(L(0),mem(o,f)))),ES(call(SEQ(L(0),mem(o,f)))),ES(call(PAREN(SEQ(L(0),mem(o,f)))))],1,0)
S('(1, g(), 2, o.f)(); (0, 0, o.f)(); ((1, o.f))();',[ES(call(SEQ(L(1),call(g),L(2),mem(o,f)))),ES(call(SEQ(L(0),L(0),mem(o,f)))),ES(call(PAREN(SEQ(L(1),mem(o,f)))))],[ES(call(SEQ(call(g),mem(o,f)))),ES(call(SEQ(L(0),mem(o,f)))),ES(call(PAREN(SEQ(L(0),mem(o,f)))))],1,0)

OBJ=lambda *es: N('ObjectExpression',properties=list(es))
S('f() === g(); a < b; which compare what they evaluate',[ES(SAME(call(f),call(g))),ES(SAME(a,b,'<'))],[ES(SEQ(call(f),call(g))),ES(SEQ(a,b))],1,0)
S('-!f(); !f() * 2; !f() - typeof g(); which convert what is primitive',[ES(un('-',NOT(call(f)))),ES(SAME(NOT(call(f)),L(2),'*')),ES(SAME(NOT(call(f)),un('typeof',call(g)),'-'))],[do('f'),do('f'),ES(SEQ(call(f),call(g)))],2,0)
S('-f(); f() * 2; !f() + g(); ~f(); which may convert objects',[ES(un('-',call(f))),ES(SAME(call(f),L(2),'*')),ES(SAME(NOT(call(f)),call(g),'+')),ES(un('~',call(f)))],None,0,0)
S('`a${!f()}b${1}`; `${!f()}${typeof g()}`; whose substitutions are primitive',[ES(tmpl(['a','b',''],[NOT(call(f)),L(1)])),ES(tmpl(['','',''],[NOT(call(f)),un('typeof',call(g))]))],[do('f'),ES(SEQ(call(f),call(g)))],2,0)
S('`${f()}`; f`${!g()}`; use(`${!f()}`); which may convert objects, are tagged, or taken',[ES(tmpl(['',''],[call(f)])),ES(N('TaggedTemplateExpression',tag=f,quasi=tmpl(['',''],[NOT(call(g))]))),use(tmpl(['',''],[NOT(call(f))]))],None,0,0)
S('"a" + f(); f() + "a"; of which no text is seen',[ES(SAME(L('a'),call(f),'+')),ES(SAME(call(f),L('a'),'+'))],[ES(SAME(L(''),call(f),'+')),ES(SAME(call(f),L(''),'+'))],1,0)
S('use("a" + f()); "" + f(); 1 + f(); f() + g(); which is taken, empty, or no text',[use(SAME(L('a'),call(f),'+')),ES(SAME(L(''),call(f),'+')),ES(SAME(L(1),call(f),'+')),ES(SAME(call(f),call(g),'+'))],None,0,0)
S('"a" + 1 + f(); `${1}` + f(); f() + ("a" + 1); which do nothing but give a text',[ES(SAME(SAME(L('a'),L(1),'+'),call(f),'+')),ES(SAME(tmpl(['',''],[L(1)]),call(f),'+')),ES(SAME(call(f),PAREN(SAME(L('a'),L(1),'+')),'+'))],[ES(SAME(L(''),call(f),'+')),ES(SAME(L(''),call(f),'+')),ES(SAME(call(f),L(''),'+'))],1,0)
S('use("a" + 1 + f()); [1] + f(); "a" + g() + f(); which is taken, no text by its form, or acts',[use(SAME(SAME(L('a'),L(1),'+'),call(f),'+')),ES(SAME(N('ArrayExpression',elements=[L(1)]),call(f),'+')),ES(SAME(SAME(L('a'),call(g),'+'),call(f),'+'))],None,0,0)
S('`a${f()}b`; `a${f()}${1}b`; of which no text is seen',[ES(tmpl(['a','b'],[call(f)])),ES(tmpl(['a','','b'],[call(f),L(1)]))],[ES(tmpl(['',''],[call(f)])),ES(tmpl(['','',''],[call(f),L(1)]))],1,0)
S('`\\n${f()}`; which is written otherwise than it reads',[ES(N('TemplateLiteral',quasis=[N('TemplateElement',value=dict(raw='\\n',cooked='\n'),tail=False),N('TemplateElement',value=dict(raw='',cooked=''),tail=True)],expressions=[call(f)]))],[ES(tmpl(['',''],[call(f)]))],1,0)
S('g(), `a${f()}`; [`a${f()}`]; x = `a${f()}`, g(); which is unused behind what comes out, or taken',[ES(SEQ(call(g),tmpl(['a',''],[call(f)]))),ES(N('ArrayExpression',elements=[tmpl(['a',''],[call(f)])])),ES(SEQ(asg('=',x,tmpl(['a',''],[call(f)])),call(g)))],[ES(SEQ(call(g),tmpl(['',''],[call(f)]))),ES(tmpl(['',''],[call(f)])),ES(SEQ(asg('=',x,tmpl(['a',''],[call(f)])),call(g)))],2,0)
S('use(`a${f()}`); f`a${g()}`; ({ a: `a${f()}` }).a; whose texts are taken',[use(tmpl(['a',''],[call(f)])),ES(N('TaggedTemplateExpression',tag=f,quasi=tmpl(['a',''],[call(g)]))),ES(mem(OBJ(prop(a,tmpl(['a',''],[call(f)]))),a))],None,0,0)
S('use(f() === g()); f() + g();',[use(SAME(call(f),call(g))),ES(SAME(call(f),call(g),'+'))],None,0,0)
S('({ a: f(), b: 1 }); ({ a: f(), b: g() });',[ES(OBJ(prop(a,call(f)),prop(b,L(1)))),ES(OBJ(prop(a,call(f)),prop(b,call(g))))],[do('f'),ES(SEQ(call(f),call(g)))],1,0)
S('({ ...f() }); ({ [a]: f() }); ({ __proto__: f() }); use({ a: f() });',[ES(OBJ(N('SpreadElement',argument=call(f)))),ES(OBJ(prop(a,call(f),computed=True))),ES(OBJ(prop(I('__proto__'),call(f)))),use(OBJ(prop(a,call(f))))],None,0,0)
S("({ [!f()]: g(), [typeof 1]: 1 }); ({ ['__proto__']: f() }); ({ ['a' + 1]() {}, b: g() });",[ES(OBJ(prop(NOT(call(f)),call(g),computed=True),prop(un('typeof',L(1)),L(1),computed=True))),ES(OBJ(prop(L('__proto__'),call(f),computed=True))),ES(OBJ(prop(SAME(L('a'),L(1),'+'),fn('FunctionExpression',None,[],B()),computed=True,method=True),prop(b,call(g))))],[ES(SEQ(call(f),call(g))),do('f'),do('g')],2,0)
S("({ [f()]: 1 }); ({ [!f()]() {} }); ({ get ['a']() {}, b: f() }); ({ [!f()]: 1, ...g() });",[ES(OBJ(prop(call(f),L(1),computed=True))),ES(OBJ(prop(NOT(call(f)),fn('FunctionExpression',None,[],B()),computed=True,method=True))),ES(OBJ(prop(L('a'),fn('FunctionExpression',None,[],B()),kind='get',computed=True),prop(b,call(f)))),ES(OBJ(prop(NOT(call(f)),L(1),computed=True),N('SpreadElement',argument=call(g))))],None,0,0)
S('({ a: class extends f() {} }); which takes its name from there',[ES(OBJ(prop(a,N('ClassExpression',id=None,superClass=call(f),body=N('ClassBody',body=[])))))],None,0,0)

S("use(!0); use(typeof 1); use(typeof 'a'); use(+1);",[use(NOT(L(0))),use(un('typeof',L(1))),use(un('typeof',L('a'))),use(un('+',L(1)))],[use(L(True)),use(L('number')),use(L('string')),use(L(1))],1,0)
S('use(1 + 2); use(3 * 4); use(6 / 2); use(7 % 4); use(1 < 2); use(1 === 2); use(1 == 1);',[use(SAME(L(1),L(2),'+')),use(SAME(L(3),L(4),'*')),use(SAME(L(6),L(2),'/')),use(SAME(L(7),L(4),'%')),use(SAME(L(1),L(2),'<')),use(SAME(L(1),L(2))),use(SAME(L(1),L(1),'=='))],[use(L(3)),use(L(12)),use(L(3)),use(L(3)),use(L(True)),use(L(False)),use(L(True))],1,0)
S('use(!(1 === 2)); use(1 + 2 + 3);',[use(NOT(SAME(L(1),L(2)))),use(SAME(SAME(L(1),L(2),'+'),L(3),'+'))],[use(L(True)),use(L(6))],1,0)
S("use('a' + 'b'); use('a' + 'b' + 'c' === 'abc'); use(typeof ('' + ''));",[use(SAME(L('a'),L('b'),'+')),use(SAME(SAME(SAME(L('a'),L('b'),'+'),L('c'),'+'),L('abc'))),use(un('typeof',PAREN(SAME(L(''),L(''),'+'))))],[use(L('ab')),use(L(True)),use(L('string'))],1,0)
S('use(-1 + 3); use(-1 < 0); use(typeof -1); use(!-1); use(- -1); use((1) + (2)); use(void 0 == null);',[use(SAME(un('-',L(1)),L(3),'+')),use(SAME(un('-',L(1)),L(0),'<')),use(un('typeof',un('-',L(1)))),use(NOT(un('-',L(1)))),use(un('-',un('-',L(1)))),use(SAME(PAREN(L(1)),PAREN(L(2)),'+')),use(SAME(un('void',L(0)),L(None),'=='))],[use(L(2)),use(L(True)),use(L('number')),use(L(False)),use(L(1)),use(L(3)),use(L(True))],1,0)
S('let x; use(![]); use(!{ a: 1 }); use(!function () { return x; });',[x_is(None),use(NOT(N('ArrayExpression',elements=[]))),use(NOT(N('ObjectExpression',properties=[prop(a,L(1))]))),use(NOT(fn('FunctionExpression',None,[],B(RETURN(x)))))],[use(L(False)),use(L(False)),use(L(False))],2,0)
S('use(![a]); use(!(f(), 1)); use(typeof null); use(-x);',[use(NOT(N('ArrayExpression',elements=[a]))),use(NOT(PAREN(SEQ(call(f),L(1))))),use(un('typeof',L(None))),use(un('-',x))],None,0,0)
S('(p?.()); (1, p)?.(); of a chain what is called',[ES(PAREN(N('ChainExpression',expression=call(I('p'),optional=True)))),ES(N('ChainExpression',expression=call(SEQ(L(1),I('p')),optional=True)))],[ES(PAREN(N('ChainExpression',expression=call(I('p'),optional=True)))),ES(N('ChainExpression',expression=call(I('p'),optional=True)))],1,0)
S("use(-1); use(0 * -1); use(1 / 2); use(1 / 0); use(9007199254740991 + 1); use('a' + 1); use(void 0);",[use(un('-',L(1))),use(SAME(L(0),un('-',L(1)),'*')),use(SAME(L(1),L(2),'/')),use(SAME(L(1),L(0),'/')),use(SAME(L(9007199254740991),L(1),'+')),use(SAME(L('a'),L(1),'+')),use(un('void',L(0)))],None,0,0)
S('use(1 - 3); use(0 - 3); use(-2 * 3); use(1 + -3); use(-7 / 7); use(-7 % 4);',[use(SAME(L(1),L(3),'-')),use(SAME(L(0),L(3),'-')),use(SAME(un('-',L(2)),L(3),'*')),use(SAME(L(1),un('-',L(3)),'+')),use(SAME(un('-',L(7)),L(7),'/')),use(SAME(un('-',L(7)),L(4),'%'))],[use(un('-',L(2))),use(un('-',L(3))),use(un('-',L(6))),use(un('-',L(2))),use(un('-',L(1))),use(un('-',L(3)))],1,0)
S('use(-(-2)); use(-(1 + 1)); use(+-2); use(- - -2); a sign before a sign',[use(un('-',un('-',L(2)))),use(un('-',SAME(L(1),L(1),'+'))),use(un('+',un('-',L(2)))),use(un('-',un('-',un('-',L(2)))))],[use(L(2)),use(un('-',L(2))),use(un('-',L(2))),use(un('-',L(2)))],1,0)
S('use(-(1)); use((1 - 3)); use(-(-(2)));',[use(un('-',PAREN(L(1)))),use(PAREN(SAME(L(1),L(3),'-'))),use(un('-',PAREN(un('-',PAREN(L(2))))))],[use(un('-',L(1))),use(PAREN(un('-',L(2)))),use(L(2))],1,0)
S('use(1 - 3 + 5); use(1 - 3 - 5); use(-1 - 1 < 0); use(typeof (0 - 1)); use(1 - 3 ? a : b);',[use(SAME(SAME(L(1),L(3),'-'),L(5),'+')),use(SAME(SAME(L(1),L(3),'-'),L(5),'-')),use(SAME(SAME(un('-',L(1)),L(1),'-'),L(0),'<')),use(un('typeof',PAREN(SAME(L(0),L(1),'-')))),use(COND(SAME(L(1),L(3),'-'),a,b))],[use(L(3)),use(un('-',L(7))),use(L(True)),use(L('number')),use(a)],1,0)
S('use(-2); use(0 * -1); use(-0); use(0 / -5); use(-4 % 2); use(-9007199254740991 - 1); use(-7 / 2); which are written as they are',[use(un('-',L(2))),use(SAME(L(0),un('-',L(1)),'*')),use(un('-',L(0))),use(SAME(L(0),un('-',L(5)),'/')),use(SAME(un('-',L(4)),L(2),'%')),use(SAME(un('-',L(9007199254740991)),L(1),'-')),use(SAME(un('-',L(7)),L(2),'/'))],None,0,0)
S('use(0 - 9007199254740991); use(-9007199254740990 - 1); the least that is exact',[use(SAME(L(0),L(9007199254740991),'-')),use(SAME(un('-',L(9007199254740990)),L(1),'-'))],[use(un('-',L(9007199254740991))),use(un('-',L(9007199254740991)))],1,0)
S('use(-2); use(+-2); of a literal whose value is negative',[use(L(-2)),use(un('+',L(-2)))],[use(un('-',L(2))),use(un('+',un('-',L(2))))],0,0)
S('use(-(-2)); use(-2 - 1); of such a literal',[use(un('-',L(-2))),use(SAME(L(-2),L(1),'-'))],[use(L(2)),use(un('-',L(3)))],1,0)
S('let x = 1 - 3; use(x); use([0 - 1]); use(a ? 1 - 2 : 3 - 5);',[x_is(SAME(L(1),L(3),'-')),use(x),use(N('ArrayExpression',elements=[SAME(L(0),L(1),'-')])),use(COND(a,SAME(L(1),L(2),'-'),SAME(L(3),L(5),'-')))],[x_is(un('-',L(2))),use(x),use(N('ArrayExpression',elements=[un('-',L(1))])),use(COND(a,un('-',L(1)),un('-',L(2))))],1,1)
S("use(f() - 3); use(1 - f()); use(-x); use(-true); use(-'1'); use(1 - '3'); use(~1 - 3); 1 - 3;",[use(SAME(call(f),L(3),'-')),use(SAME(L(1),call(f),'-')),use(un('-',x)),use(un('-',L(True))),use(un('-',L('1'))),use(SAME(L(1),L('3'),'-')),use(SAME(un('~',L(1)),L(3),'-')),ES(SAME(L(1),L(3),'-'))],[use(SAME(call(f),L(3),'-')),use(SAME(L(1),call(f),'-')),use(un('-',x)),use(un('-',L(True))),use(un('-',L('1'))),use(SAME(L(1),L('3'),'-')),use(SAME(un('~',L(1)),L(3),'-'))],1,0)
S('(1 < 2 ? a : b)(); use(!1 || a);',[ES(call(COND(SAME(L(1),L(2),'<'),a,b))),use(OR(NOT(L(1)),a))],[do('a'),use(a)],1,0)

NAMED=lambda local,imported=None: N('ImportSpecifier',imported=I(imported or local),local=I(local))
DEFAULT=lambda local: N('ImportDefaultSpecifier',local=I(local))
ALL=lambda local: N('ImportNamespaceSpecifier',local=I(local))
IMPORT=lambda source,*names: N('ImportDeclaration',specifiers=list(names),source=L(source))
S("import { a } from 'x';",[IMPORT('x',NAMED('a'))],[IMPORT('x')],1,0)
S("import { a, b } from 'm'; use(a);",[IMPORT('m',NAMED('a'),NAMED('b')),use(a)],[IMPORT('m',NAMED('a')),use(a)],1,1)
S("import { a, b as c, d } from 'm'; use(c); whose names stand in order",[IMPORT('m',NAMED('a'),NAMED('c','b'),NAMED('d')),use(c)],[IMPORT('m',NAMED('c','b')),use(c)],1,1)
S("import a, { b } from 'm'; import c, * as o from 'n'; use(b); use(o);",[IMPORT('m',DEFAULT('a'),NAMED('b')),IMPORT('n',DEFAULT('c'),ALL('o')),use(b),use(o)],[IMPORT('m',NAMED('b')),IMPORT('n',ALL('o')),use(b),use(o)],1,2)
S("import a from 'm'; import * as b from 'n'; import {} from 'o'; whose modules are loaded as before",[IMPORT('m',DEFAULT('a')),IMPORT('n',ALL('b')),IMPORT('o')],[IMPORT('m'),IMPORT('n'),IMPORT('o')],1,0)
S("import { a, b } from 'm'; export { a }; use(a); export * from 'n';",[IMPORT('m',NAMED('a'),NAMED('b')),exports('a'),use(a),N('ExportAllDeclaration',exported=None,source=L('n'))],[IMPORT('m',NAMED('a')),exports('a'),use(a),N('ExportAllDeclaration',exported=None,source=L('n'))],1,2)
S("import { a, b } from 'm'; export { b } from 'm'; which exports what it names of the other module",[IMPORT('m',NAMED('a'),NAMED('b')),N('ExportNamedDeclaration',declaration=None,specifiers=[N('ExportSpecifier',local=b,exported=b)],source=L('m'))],[IMPORT('m'),N('ExportNamedDeclaration',declaration=None,specifiers=[N('ExportSpecifier',local=b,exported=b)],source=L('m'))],1,0)
S("import { a } from 'm'; eval('a'); which may use each name",[IMPORT('m',NAMED('a')),do('eval',L('a'))],None,0,0)
S("import { a } from 'm'; use(typeof a); export function h() { return a; } a; of which two uses stay",[IMPORT('m',NAMED('a')),use(un('typeof',a)),export(F_('h',[],RETURN(a))),ES(a)],[IMPORT('m',NAMED('a')),use(un('typeof',a)),export(F_('h',[],RETURN(a)))],1,2)
S("import { a } from 'm'; export function h(a) { return a; } whose a is another",[IMPORT('m',NAMED('a')),export(F_('h',['a'],RETURN(a)))],[IMPORT('m'),export(F_('h',['a'],RETURN(a)))],1,1)
S("import { a } from 'm'; use(0 && a); import { b } from 'n'; whose use goes first",[IMPORT('m',NAMED('a')),use(AND(L(0),a)),IMPORT('n',NAMED('b'))],[IMPORT('m'),use(L(0)),IMPORT('n')],2,0)
S("import { a, b } from 'm'; function h() { a(); } export function k() { return b; h(); }",[IMPORT('m',NAMED('a'),NAMED('b')),F_('h',[],do('a')),export(F_('k',[],RETURN(b),do('h')))],[IMPORT('m',NAMED('b')),export(F_('k',[],RETURN(b)))],3,1)
FROM_X=N('ExportNamedDeclaration',declaration=None,specifiers=[N('ExportSpecifier',local=b,exported=b)],source=L('x'))
ALL_X=N('ExportAllDeclaration',exported=None,source=L('x'))
S("import 'x'; import 'x';",[IMPORT('x'),IMPORT('x')],[IMPORT('x')],1,0)
S("import { a } from 'x'; import 'x'; use(a);",[IMPORT('x',NAMED('a')),IMPORT('x'),use(a)],[IMPORT('x',NAMED('a')),use(a)],1,1)
S("export { b } from 'x'; import 'x';",[FROM_X,IMPORT('x')],[FROM_X],1,0)
S("export * from 'x'; use(1); import 'x'; whatever stands between",[ALL_X,use(L(1)),IMPORT('x')],[ALL_X,use(L(1))],1,0)
S("import 'x'; import { a } from 'x'; use(a); of which the first says when the module is loaded",[IMPORT('x'),IMPORT('x',NAMED('a')),use(a)],[IMPORT('x',NAMED('a')),use(a)],1,1)
S("import 'x'; export { b } from 'x'; in which the export has a name",[IMPORT('x'),FROM_X],None,0,0)
S("import { a } from 'x'; import { b } from 'x'; use(a); whose second import has no name then",[IMPORT('x',NAMED('a')),IMPORT('x',NAMED('b')),use(a)],[IMPORT('x',NAMED('a')),use(a)],1,1)
S("import { a } from 'x'; import { b } from 'x'; use(b); whose first import has none",[IMPORT('x',NAMED('a')),IMPORT('x',NAMED('b')),use(b)],[IMPORT('x',NAMED('b')),use(b)],1,1)
S("import 'x'; import 'y'; import 'x'; import 'y'; import 'x';",[IMPORT('x'),IMPORT('y'),IMPORT('x'),IMPORT('y'),IMPORT('x')],[IMPORT('x'),IMPORT('y')],1,0)
S("import 'y'; use(1); export * from 'x'; import 'x'; use(2); import 'z'; import 'y'; use(3); import 'x'; use(4); of which the others keep their order",[IMPORT('y'),use(L(1)),ALL_X,IMPORT('x'),use(L(2)),IMPORT('z'),IMPORT('y'),use(L(3)),IMPORT('x'),use(L(4))],[IMPORT('y'),use(L(1)),ALL_X,use(L(2)),IMPORT('z'),use(L(3)),use(L(4))],1,0)
S("import 'x'; 1; import 'x'; whose list loses the literal first",[IMPORT('x'),ES(L(1)),IMPORT('x')],[IMPORT('x')],1,0)
S("import 'x'; import 'X'; import 'x/'; import 'xx'; of four modules",[IMPORT('x'),IMPORT('X'),IMPORT('x/'),IMPORT('xx')],None,0,0)
S("import { a } from 'x'; import 'x'; eval('a'); which may use the name",[IMPORT('x',NAMED('a')),IMPORT('x'),do('eval',L('a'))],[IMPORT('x',NAMED('a')),do('eval',L('a'))],1,0)

# imports of one module: ECMA-262 16.2.2
S("import { a } from 'x'; import { b } from 'x'; use(a, b);",[IMPORT('x',NAMED('a')),IMPORT('x',NAMED('b')),use(a,b)],[IMPORT('x',NAMED('a'),NAMED('b')),use(a,b)],1,2)
S("import { a } from 'x'; use(a); import { b as c } from 'x'; use(c); whatever stands between",[IMPORT('x',NAMED('a')),use(a),IMPORT('x',NAMED('c','b')),use(c)],[IMPORT('x',NAMED('a'),NAMED('c','b')),use(a),use(c)],1,2)
S("import a from 'x'; import b from 'y'; import { c } from 'x'; import { d } from 'y'; use(a, b, c, d); whose sources alternate",[IMPORT('x',DEFAULT('a')),IMPORT('y',DEFAULT('b')),IMPORT('x',NAMED('c')),IMPORT('y',NAMED('d')),use(a,b,c,I('d'))],[IMPORT('x',DEFAULT('a'),NAMED('c')),IMPORT('y',DEFAULT('b'),NAMED('d')),use(a,b,c,I('d'))],1,4)
S("import { a } from 'x'; import { b, default as c } from 'x'; import d from 'x'; use(a, b, c, d); of which the default goes to the front",[IMPORT('x',NAMED('a')),IMPORT('x',NAMED('b'),NAMED('c','default')),IMPORT('x',DEFAULT('d')),use(a,b,c,I('d'))],[IMPORT('x',DEFAULT('d'),NAMED('a'),NAMED('b'),NAMED('c','default')),use(a,b,c,I('d'))],1,4)
S("import a from 'x'; import b, { c } from 'x'; use(a, b, c); of which the second default gets its name",[IMPORT('x',DEFAULT('a')),IMPORT('x',DEFAULT('b'),NAMED('c')),use(a,b,c)],[IMPORT('x',DEFAULT('a'),NAMED('b','default'),NAMED('c')),use(a,b,c)],1,3)
S("import { a } from 'x'; import * as o from 'x'; use(a, o); whose namespace stands beside no names",[IMPORT('x',NAMED('a')),IMPORT('x',ALL('o')),use(a,I('o'))],None,0,2)
S("import * as o from 'x'; import * as p from 'x'; use(o, p);",[IMPORT('x',ALL('o')),IMPORT('x',ALL('p')),use(I('o'),I('p'))],None,0,2)
S("import * as o from 'x'; import a from 'x'; use(a, o); whose default stands before the namespace",[IMPORT('x',ALL('o')),IMPORT('x',DEFAULT('a')),use(a,I('o'))],[IMPORT('x',DEFAULT('a'),ALL('o')),use(a,I('o'))],1,2)
S("import a from 'x'; import * as o from 'x'; import b from 'x'; import { c } from 'x'; use(a, b, c, o); of which the first is full then",[IMPORT('x',DEFAULT('a')),IMPORT('x',ALL('o')),IMPORT('x',DEFAULT('b')),IMPORT('x',NAMED('c')),use(a,b,c,I('o'))],[IMPORT('x',DEFAULT('a'),ALL('o')),IMPORT('x',DEFAULT('b'),NAMED('c')),use(a,b,c,I('o'))],1,4)
S("import * as o from 'x'; import { a } from 'x'; import 'x'; import b from 'x'; use(a, b, o); of which each goes into the first that can take it",[IMPORT('x',ALL('o')),IMPORT('x',NAMED('a')),IMPORT('x'),IMPORT('x',DEFAULT('b')),use(a,b,I('o'))],[IMPORT('x',DEFAULT('b'),ALL('o')),IMPORT('x',NAMED('a')),use(a,b,I('o'))],1,3)
S("import { a } from 'x'; import { b } from 'x'; export { a, b }; export function h() { return a; } which refer to them as before",[IMPORT('x',NAMED('a')),IMPORT('x',NAMED('b')),exports('a','b'),export(F_('h',[],RETURN(a)))],[IMPORT('x',NAMED('a'),NAMED('b')),exports('a','b'),export(F_('h',[],RETURN(a)))],1,3)
S("export { b } from 'x'; import { a } from 'x'; use(a); which is no import",[FROM_X,IMPORT('x',NAMED('a')),use(a)],None,0,1)
S("import 'x'; export {};",[IMPORT('x'),exports()],None,0,0)
S("import { a } from 'x'; import { b } from 'x'; eval('a'); which sees their names in order",[IMPORT('x',NAMED('a')),IMPORT('x',NAMED('b')),do('eval',L('a'))],None,0,0)

# imports that only feed exports: ECMA-262 16.2.3.7
def SPEC(local,exported): return N('ExportSpecifier',local=local,exported=exported)
def LISTS(*pairs): return N('ExportNamedDeclaration',declaration=None,specifiers=[SPEC(I(l),I(e)) for l,e in pairs],source=None)
def FROM(source,*pairs): return N('ExportNamedDeclaration',declaration=None,specifiers=[SPEC(I(l),I(e)) for l,e in pairs],source=L(source))
def ALL_AS(exported,source): return N('ExportAllDeclaration',exported=I(exported),source=L(source))
S("import { a } from 'x'; export { a as b };",[IMPORT('x',NAMED('a')),LISTS('ab')],[FROM('x','ab')],1,0)
S("import { a as c, b } from 'x'; export { b, c as d, b as e }; in the order of the export",[IMPORT('x',NAMED('c','a'),NAMED('b')),LISTS('bb','cd','be')],[FROM('x','bb','ad','be')],1,0)
S("import a, { b } from 'x'; export { b, a as c };",[IMPORT('x',DEFAULT('a'),NAMED('b')),LISTS('bb','ac')],[FROM('x','bb',('default','c'))],1,0)
S("import { 'a b' as a } from 'x'; export { a as 'c d' };",[IMPORT('x',N('ImportSpecifier',imported=L('a b'),local=a)),N('ExportNamedDeclaration',declaration=None,specifiers=[SPEC(a,L('c d'))],source=None)],[N('ExportNamedDeclaration',declaration=None,specifiers=[SPEC(L('a b'),L('c d'))],source=L('x'))],1,0)
S("import * as a from 'x'; export { a as b };",[IMPORT('x',ALL('a')),LISTS('ab')],[ALL_AS('b','x')],1,0)
S("import * as a from 'x'; export { a, a as b }; which one export can't list",[IMPORT('x',ALL('a')),LISTS('aa','ab')],None,0,2)
S("import a, * as b from 'x'; export { a, b }; whose namespace isn't alone",[IMPORT('x',DEFAULT('a'),ALL('b')),LISTS('aa','bb')],None,0,2)
S("import { a } from 'x'; export { a }; use(a); which is used besides",[IMPORT('x',NAMED('a')),LISTS('aa'),use(a)],None,0,2)
S("import { a } from 'x'; export { a }; export function h() { return a; }",[IMPORT('x',NAMED('a')),LISTS('aa'),export(F_('h',[],RETURN(a)))],None,0,2)
S("import { a, b } from 'x'; export { a }; use(b); which lists one of two",[IMPORT('x',NAMED('a'),NAMED('b')),LISTS('aa'),use(b)],None,0,2)
S("import { a, b } from 'x'; export { a }; export { b };",[IMPORT('x',NAMED('a'),NAMED('b')),LISTS('aa'),LISTS('bb')],None,0,2)
S("import { a } from 'x'; export { a }; export { a as b };",[IMPORT('x',NAMED('a')),LISTS('aa'),LISTS('ab')],None,0,2)
S("import { a } from 'x'; let b = f(); export { a, b }; which lists another besides",[IMPORT('x',NAMED('a')),var('let',(b,call(f))),LISTS('aa','bb')],None,0,2)
S("import { a } from 'x'; import { b } from 'y'; export { a, b }; of two modules",[IMPORT('x',NAMED('a')),IMPORT('y',NAMED('b')),LISTS('aa','bb')],None,0,2)
S("export { a }; import { a } from 'x'; whose export stands before it",[LISTS('aa'),IMPORT('x',NAMED('a'))],None,0,1)
S("import { a } from 'x'; eval('a'); export { a }; which may use the name",[IMPORT('x',NAMED('a')),do('eval',L('a')),LISTS('aa')],None,0,1)
S("import { a, b } from 'x'; export { a }; which loses a name first",[IMPORT('x',NAMED('a'),NAMED('b')),LISTS('aa')],[FROM('x','aa')],1,0)
S("import { a } from 'x'; use(0 && a); export { a }; whose other use goes first",[IMPORT('x',NAMED('a')),use(AND(L(0),a)),LISTS('aa')],[FROM('x','aa'),use(L(0))],2,0)
S("use(1); import { a } from 'x'; import 'y'; use(2); export { a }; use(3); at the place of the import",[use(L(1)),IMPORT('x',NAMED('a')),IMPORT('y'),use(L(2)),LISTS('aa'),use(L(3))],[use(L(1)),FROM('x','aa'),IMPORT('y'),use(L(2)),use(L(3))],1,0)
S("import { a } from 'x'; import * as o from 'z'; import { b } from 'y'; export { b as c }; use(o); export { a as d }; each at its own",[IMPORT('x',NAMED('a')),IMPORT('z',ALL('o')),IMPORT('y',NAMED('b')),LISTS('bc'),use(I('o')),LISTS('ad')],[FROM('x','ad'),IMPORT('z',ALL('o')),FROM('y','bc'),use(I('o'))],1,1)
S("import { a } from 'x'; import { b } from 'x'; export { a, b }; which come together first",[IMPORT('x',NAMED('a')),IMPORT('x',NAMED('b')),LISTS('aa','bb')],[FROM('x','aa','bb')],2,0)
S("import { a } from 'x'; import { b } from 'x'; export { b }; export { a }; of which each lists one then",[IMPORT('x',NAMED('a')),IMPORT('x',NAMED('b')),LISTS('bb'),LISTS('aa')],[IMPORT('x',NAMED('a'),NAMED('b')),LISTS('bb'),LISTS('aa')],1,2)
S("import 'x'; import { a } from 'x'; export { a };",[IMPORT('x'),IMPORT('x',NAMED('a')),LISTS('aa')],[FROM('x','aa')],2,0)
S("import { a } from 'x'; export { a }; import 'x'; whose second request goes",[IMPORT('x',NAMED('a')),LISTS('aa'),IMPORT('x')],[FROM('x','aa')],1,0)
S("import { a } from 'x'; export { a }; export { b } from 'x'; of which both stay apart",[IMPORT('x',NAMED('a')),LISTS('aa'),FROM('x','bb')],[FROM('x','aa'),FROM('x','bb')],1,0)
S("import { a } from 'x'; export { a as default };",[IMPORT('x',NAMED('a')),LISTS(('a','default'))],[FROM('x',('a','default'))],1,0)
S("import { a } from 'x'; { let a = f(); use(a); } export { a }; whose other a is another",[IMPORT('x',NAMED('a')),B(var('let',(a,call(f))),use(a)),LISTS('aa')],[FROM('x','aa'),B(var('let',(a,call(f))),use(a))],1,1)


# What one pass leaves of a statement, or `None` where it leaves it alone, with the passes and references that are counted.
Y=I('y')
CALL=do('f')
FINE=L('text')
SWITCH=lambda on,*cases: N('SwitchStatement',discriminant=on,cases=[N('SwitchCase',test=test,consequent=list(body)) for test,*body in cases])
CLASS_OF=lambda *members: N('ClassDeclaration',id=I('C'),superClass=None,body=N('ClassBody',body=list(members)))
DEFAULT_OF=lambda d: N('ExportDefaultDeclaration',declaration=d)
THROW=lambda e: N('ThrowStatement',argument=e)
CONTINUE=lambda l=None: N('ContinueStatement',label=l)
DO=lambda body,test: N('DoWhileStatement',body=body,test=test)
HOLDS=lambda *body: export(F_('h',[],*body))
STATEMENTS=[
 # statements of expressions
 ("f(); 'text';",[CALL,ES(FINE)],[CALL],1,0),
 ('null; true; 7;',[ES(L(None)),ES(L(True)),ES(L(7))],[],1,0),
 ('a;',[ES(a)],None,0,0),
 ('void 0;',[ES(un('void',L(0)))],[],1,0),
 ('typeof a;',[ES(un('typeof',a))],[],1,0),
 ('!f();',[ES(NOT(call(f)))],[CALL],1,0),
 ('f() + 1;',[ES(bi('+',call(f),L(1)))],None,0,0),
 ('f() === g();',[ES(SAME(call(f),call(I('g'))))],[ES(SEQ(call(f),call(I('g'))))],1,0),
 ('[f(), 1];',[ES(ARR(call(f),L(1)))],[CALL],1,0),
 ('({ p: f() });',[ES(OBJ(prop(I('p'),call(f))))],[CALL],1,0),
 ('1, f();',[ES(SEQ(L(1),call(f)))],[CALL],1,0),
 ('f(), 1;',[ES(SEQ(call(f),L(1)))],[CALL],1,0),
 ('a ? 1 : f();',[ES(COND(a,L(1),call(f)))],[ES(OR(a,call(f)))],1,0),
 ('true ? f() : a();',[ES(COND(L(True),call(f),call(a)))],[CALL],1,0),
 ('0 && f();',[ES(AND(L(0),call(f)))],[],1,0),
 ('1 || f();',[ES(OR(L(1),call(f)))],[],1,0),
 ('null ?? f();',[ES(ELSE(L(None),call(f)))],[CALL],1,0),
 ('(() => { f(); });',[ES(ARROW(CALL))],[],1,0),
 ('new a();',[ES(N('NewExpression',callee=a,arguments=[]))],None,0,0),
 ('a.b;',[ES(mem(a,b))],None,0,0),
 ('a = 1;',[ES(asg('=',a,L(1)))],None,0,0),
 ('delete a.b;',[ES(un('delete',mem(a,b)))],None,0,0),
 ('use(1 + 2);',[use(bi('+',L(1),L(2)))],[use(L(3))],1,0),
 # blocks, labels
 ('f(); {}',[CALL,B()],[CALL],1,0),
 ('{ { ; } }',[B(B(EMPTY))],[],1,0),
 ('{ f(); }',[B(CALL)],None,0,0),
 ('{ let x = 1; }',[B(x_is(L(1)))],[],1,0),
 ('l: ;',[LABEL('l',EMPTY)],[],1,0),
 ('l: { break l; f(); }',[LABEL('l',B(BREAK(I('l')),CALL))],[],1,0),
 # variables
 ('let x = 1;',[x_is(L(1))],[],1,0),
 ('let x = f();',[x_is(call(f))],[CALL],1,0),
 ('let x = f(); use(x);',[x_is(call(f)),use(x)],None,0,1),
 ('var x = 1, y = f(); use(y);',[var('var',(x,L(1)),(Y,call(f))),use(Y)],[var('var',(Y,call(f))),use(Y)],1,1),
 ('const x = function () { f(); };',[x_is(fn('FunctionExpression',None,[],B(CALL)),'const')],[],1,0),
 ('let x; use(x);',[x_is(None),use(x)],None,0,1),
 ('let [x] = a;',[var('let',(N('ArrayPattern',elements=[x]),a))],None,0,0),
 ('var x = 1; in a script',[x_is(L(1),'var')],None,0,0,'script'),
 # functions, classes
 ('function h() { f(); }',[F_('h',[],CALL)],[],1,0),
 ('function h() {} h();',[F_('h',[]),do('h')],None,0,1),
 ('function h() { h(); }',[F_('h',[],do('h'))],None,0,1),
 ('export function h() { 1; return; f(); }',[HOLDS(ES(L(1)),RETURN(None),CALL)],[HOLDS(RETURN(None))],1,0),
 ('class C {}',[CLASS_OF()],None,0,0),
 ('class C { static { 1; } }',[CLASS_OF(N('StaticBlock',body=[ES(L(1))]))],[CLASS_OF(N('StaticBlock',body=[]))],1,0),
 # `if`
 ('if (true) f();',[WHEN(L(True),CALL)],[CALL],1,0),
 ('if (false) f();',[WHEN(L(False),CALL)],[],1,0),
 ('if (0) a(); else f();',[WHEN(L(0),do('a'),CALL)],[CALL],1,0),
 ('if ([]) { f(); } else a();',[WHEN(ARR(),B(CALL),do('a'))],[B(CALL)],1,0),
 ('if (a) f(); else 1;',[WHEN(a,CALL,ES(L(1)))],[WHEN(a,CALL)],1,0),
 ('if (a) { 1; }',[WHEN(a,B(ES(L(1))))],[ES(a)],1,0),
 ('if (a && 0) { f(); var x; } use(x);',[WHEN(AND(a,L(0)),B(CALL,x_is(None,'var'))),use(x)],[WHEN(AND(a,L(0)),B(x_is(None,'var'))),use(x)],1,1),
 ('if (0) { var x = f(); } use(x);',[WHEN(L(0),B(x_is(call(f),'var'))),use(x)],[WHEN(L(0),B(x_is(L(0),'var'))),use(x)],1,1),
 ('if (1) while (a) f();',[WHEN(L(1),N('WhileStatement',test=a,body=CALL))],None,0,0),
 # loops
 ('while (0) f();',[N('WhileStatement',test=L(0),body=CALL)],[],1,0),
 ('while (a) 1;',[N('WhileStatement',test=a,body=ES(L(1)))],[N('WhileStatement',test=a,body=EMPTY)],1,0),
 ('while (1) { break; f(); }',[WHILE(L(1),BREAK(),CALL)],[WHILE(L(1),BREAK())],1,0),
 ('do f(); while (0);',[DO(CALL,L(0))],None,0,0),
 ('do { 1; } while (a);',[DO(B(ES(L(1))),a)],[DO(EMPTY,a)],1,0),
 ('for (; null;) f();',[N('ForStatement',init=None,test=L(None),update=None,body=CALL)],[],1,0),
 ('for (f(); 0;) a();',[N('ForStatement',init=call(f),test=L(0),update=None,body=do('a'))],None,0,0),
 ('for (let x = 0; x;) 1;',[N('ForStatement',init=x_is(L(0)),test=x,update=None,body=ES(L(1)))],[N('ForStatement',init=x_is(L(0)),test=x,update=None,body=EMPTY)],1,1),
 ('for (const x of a) { 1; }',[IN_EACH(True,x_is(None,'const'),a,ES(L(1)))],[{**IN_EACH(True,x_is(None,'const'),a),'body':EMPTY}],1,0),
 ('for (x in a) { f(); {} }',[IN_EACH(False,x,a,CALL,B())],[IN_EACH(False,x,a,CALL)],1,0),
 ('l: for (;;) { continue l; f(); }',[LABEL('l',EACH(CONTINUE(I('l')),CALL))],[LABEL('l',EACH(CONTINUE(I('l'))))],1,0),
 # `switch`, `try`, `with`, jumps
 ('switch (a) { case 1: f(); break; f(); default: 1; }',[SWITCH(a,(L(1),CALL,BREAK(),CALL),(None,ES(L(1))))],[SWITCH(a,(L(1),CALL,BREAK()),(None,))],1,0),
 ('switch (1) { default: }',[SWITCH(L(1),(None,))],None,0,0),
 ('try { 1; } catch (e) { f(e); }',[TRY(B(ES(L(1))),I('e'),ES(call(f,I('e'))))],[],1,0),
 ('try { f(); } catch (e) { 1; }',[TRY(B(CALL),I('e'),ES(L(1)))],[TRY(B(CALL),I('e'))],1,0),
 ('try { f(); } finally { 1; }',[FINALLY(B(CALL),ES(L(1)))],[FINALLY(B(CALL))],1,0),
 ('try {} finally { f(); }',[FINALLY(B(),CALL)],[B(CALL)],1,0),
 ('with (a) { 1; } in a script',[N('WithStatement',object=a,body=B(ES(L(1))))],[N('WithStatement',object=a,body=EMPTY)],1,0,'script'),
 ('throw a; f(); { f(); }',[THROW(a),CALL,B(CALL)],[THROW(a)],1,0),
 ('throw a; let x = f();',[THROW(a),x_is(call(f))],[THROW(a)],1,0),
 ('use(x); throw a; let x = f();',[use(x),THROW(a),x_is(call(f))],None,0,1),
 ('debugger; 1;',[DEBUGGER,ES(L(1))],[DEBUGGER],1,0),
 # imports, exports
 ("import { a } from 'm';",[IMPORT('m',NAMED('a'))],[IMPORT('m')],1,0),
 ("import { a, b } from 'm'; use(b);",[IMPORT('m',NAMED('a'),NAMED('b')),use(b)],[IMPORT('m',NAMED('b')),use(b)],1,1),
 ('let x = 1; export { x };',[x_is(L(1)),exports('x')],None,0,1),
 ('export default 1;',[DEFAULT_OF(L(1))],None,0,0),
 ('export default function () { 1; }',[DEFAULT_OF(fn('FunctionDeclaration',None,[],B(ES(L(1)))))],[DEFAULT_OF(fn('FunctionDeclaration',None,[],B()))],1,0),
]
for row in STATEMENTS: S(*row)
assert all(row[3] <= 1 for row in STATEMENTS)
# A declaration of a name that nothing uses becomes a statement of its value.
S('var x = f(); const y = h(); at the start of a function',[export(F_('g',[],x_is(call(f),'var'),var('const',(I('y'),call(I('h'))))))],[export(F_('g',[],do('f'),do('h')))],1,0)
S('let x = f(); let y = x; let z = use(y);',[x_is(call(f)),var('let',(I('y'),x)),var('let',(I('z'),call(I('use'),I('y'))))],[x_is(call(f)),var('let',(I('y'),x)),use(I('y'))],1,2)
S('let x = f(); let y = x;',[x_is(call(f)),var('let',(I('y'),x))],[do('f')],2,0)
S('let x = a.b; let y = z;',[x_is(mem(a,b)),var('let',(I('y'),I('z')))],[ES(mem(a,b)),ES(I('z'))],1,0)
S('let x = { a: f(), b: 1 }; let y = a ? f() : 1; let z = [2, g()];',[x_is(N('ObjectExpression',properties=[prop(I('a'),call(f)),prop(I('b'),L(1))])),var('let',(I('y'),N('ConditionalExpression',test=a,consequent=call(f),alternate=L(1)))),var('let',(I('z'),N('ArrayExpression',elements=[L(2),call(g)])))],[do('f'),ES(N('LogicalExpression',operator='&&',left=a,right=call(f))),do('g')],2,0)
S('switch (a) { case 1: let x = f(); }',[N('SwitchStatement',discriminant=a,cases=[N('SwitchCase',test=L(1),consequent=[x_is(call(f))])])],[N('SwitchStatement',discriminant=a,cases=[N('SwitchCase',test=L(1),consequent=[do('f')])])],1,0)
S('if (a) { var x = f(); } else var y = f();',[IF(B(x_is(call(f),'var')),var('var',(I('y'),call(f))))],[IF(B(do('f')),var('var',(I('y'),call(f))))],1,0)
S('{ let x = f(); } in a script',[B(x_is(call(f)))],[B(do('f'))],1,0,'script')
S('{ var x = f(); } in a script',[B(x_is(call(f),'var'))],None,0,0,'script')
S('var x = f(); in a script',[x_is(call(f),'var')],None,0,0,'script')
S('function g() { with (a) { var x = f(); } } in a script',[F_('g',[],N('WithStatement',object=a,body=B(x_is(call(f),'var'))))],None,0,0,'script')
S("let x = f(); eval('');",[x_is(call(f)),do('eval',L(''))],None,0,0)
S('export const x = f(); for (let y = f(); a;) g();',[export(x_is(call(f),'const')),N('ForStatement',init=var('let',(I('y'),call(f))),test=a,update=None,body=do('g'))],None,0,0)
S('let x = f(), y = f(); use(x);',[var('let',(x,call(f)),(I('y'),call(f))),use(x)],None,0,1)
S('let x = f(x);',[x_is(call(f,x))],None,0,1)
S('let x = class { static [f()] = 1; };',[x_is(N('ClassExpression',id=None,superClass=None,body=N('ClassBody',body=[N('PropertyDefinition',key=call(f),computed=True,static=True,value=L(1))])))],None,0,0)
S("let [x] = f(); let { y } = f();",[var('let',(N('ArrayPattern',elements=[x]),call(f))),var('let',(N('ObjectPattern',properties=[prop(I('y'),I('y'),shorthand=True)]),call(f)))],None,0,0)

def text(tree): return json.dumps(tree, sort_keys=True, separators=(',', ':'))


# Texts that are told as they are: the text, and the tree that is left, with the passes that changed something.
def whole_text(items, source='module', extras=''): return '{"type":"Program","sourceType":"%s"%s,"body":[%s]}' % (source, extras, items)
def stands(items): return whole_text('{"type":"ExpressionStatement","expression":%s}' % items)
USE_STRICT='{"type":"ExpressionStatement","directive":"use\\\\x20strict","expression":{"type":"Literal","value":"use strict","raw":"\'use\\\\x20strict\'"}}'
written=[
 (whole_text(''),prog([]),0),
 (whole_text('{"type":"EmptyStatement"},{"type":"DebuggerStatement"},{"type":"ExpressionStatement","expression":{"type":"Literal","value":1}}'),prog([DEBUGGER]),1),
 (' {"body" : [{"type":"EmptyStatement","start":0,"end":1}],\t"sourceType":"script", "type":"Program"}\r',prog([],'script'),0),
 (whole_text(USE_STRICT+',{"type":"DebuggerStatement"}','commonjs'),prog([N('ExpressionStatement',expression=L('use strict'),directive='use\\x20strict'),DEBUGGER],'commonjs'),0),
 # a `directive` behind the head is no directive, and of a key that comes twice the last counts
 ('{"type":"Program","sourceType":"script","sourceType":"module","body":[{"type":"DebuggerStatement"},{"type":"ExpressionStatement","directive":"use strict","expression":{"type":"Literal","value":"use strict"}}]}',prog([DEBUGGER]),1),
 # the greatest number, null, truth values, and extras that say nothing
 ('{"type":"Program","sourceType":"module","async":false,"decorators":[],"attributes":null,"options":{},"assertions":"","phase":null,"body":[{"type":"ExpressionStatement","expression":{"type":"Literal","value":-9007199254740991}},{"type":"ExpressionStatement","expression":{"type":"Literal","value":null,"raw":"null"}},{"type":"ExpressionStatement","expression":{"type":"Literal","value":true}}]}',prog([]),1),
]

# Items of a body, each with what is said of the first fault.
RANGE='number out of range'
items=[
 ('{"type":"ExpressionStatement","expression":{"type":"YieldExpression"}}','unknown node YieldExpression'),
 ('{"type":"Über-Statement 7_\\u0000"}','unknown node ?ber?Statement?7_?'),
 ('{"type":""}','unknown node '),
 ('{"type":"ExpressionStatement","expression":{"type":"Literal","value":9007199254740992}}',RANGE),
 ('{"type":"ExpressionStatement","expression":{"type":"Literal","value":1.0}}',RANGE),
 ('{"type":"ExpressionStatement","expression":{"type":"Literal","value":-0}}',RANGE),
 ('{"type":"ExpressionStatement","expression":{"type":"Literal","value":null,"raw":"1e400"}}',RANGE),
 ('{"type":"ExpressionStatement","expression":{"type":"Literal","value":1,"bigint":"1"}}','unknown node Literal'),
 ('{"type":"ExpressionStatement","expression":{"type":"Literal"}}','bad field value in Literal'),
 ('{"type":"ExpressionStatement","expression":{"type":"Literal","value":[]}}','bad field value in Literal'),
 ('{"type":"ExpressionStatement"}','bad field expression in ExpressionStatement'),
 ('{"type":"ExpressionStatement","expression":null}','bad field expression in ExpressionStatement'),
 ('{"type":"ExpressionStatement","expression":{"type":"EmptyStatement"}}','bad field expression in ExpressionStatement'),
 ('{"type":"ExpressionStatement","expression":{"value":1}}','bad field type in '),
 ('{"type":"ExpressionStatement","directive":"a","expression":{"type":"Literal","value":1}}','bad field expression in ExpressionStatement'),
 ('{"type":"ExpressionStatement","directive":"a","expression":{"type":"Literal","value":9007199254740992}}','bad field expression in ExpressionStatement'),
 ('{"type":"Literal","value":1}','bad field body in Program'),
 ('{"type":"Program","sourceType":"module","body":[]}','bad field body in Program'),
 ('5','bad field body in Program'),
 ('{"type":"EmptyStatement","async":true}','bad field async in EmptyStatement'),
 ('{"type":"EmptyStatement","phase":"defer","options":{"a":1}}','bad field options in EmptyStatement'),
 ('{"type":"DebuggerStatement","phase":false}','bad field phase in DebuggerStatement'),
 ('{"type":"ExpressionStatement","await":true,"expression":{"type":"Literal","value":1,"decorators":[0]}}','bad field decorators in Literal'),
 ('{"type":"ExpressionStatement","expression":{"type":"Literal","value":1},"generator":true}','bad field generator in ExpressionStatement'),
 # the first of two faults
 ('{"type":"ExpressionStatement"},{"type":"Unknown"}','bad field expression in ExpressionStatement'),
]

# Texts that are no program, with the code and what is said. A lone byte stands as a surrogate.
no_programs=[(t,4,'not JSON') for t in ['{"type":"Program"','{"type":"Program"} 1','"\udcff"','"\\ud800"','1e999','['*128]]+[
 ('[]',5,'bad field type in '),('{}',5,'bad field type in '),('{"type":1}',5,'bad field type in '),('{"type":"Literal","value":1}',5,'bad field type in '),
 ('{"type":"File"}',5,'unknown node File'),('{"type":"Program"}',5,'bad field sourceType in Program'),
 ('{"type":"Program","sourceType":"Module","body":[]}',5,'bad field sourceType in Program'),
 ('{"type":"Program","sourceType":"module","body":{}}',5,'bad field body in Program'),('{"type":"Program","sourceType":"module"}',5,'bad field body in Program'),
]

# What is answered, written and said for an empty module, where the outside fails.
LEFT='%s\npasses 0 references 0\n'%text(prog([]))
outside=[
 ('room %d'%len(LEFT),'0\n'+LEFT),('read 1','2\nshake: read fault\n'),('read 2','2\nshake: read fault\n'),('write 1','8\nshake: write fault\n'),
 ('room 10','8\n%s\nshake: write fault\n'%LEFT[:10]),('write 2','0\n'+LEFT),
]
refused=['','shake,','dce,','shake,frob,','shake,DCE,','shake,dce,,','shake,dce,--frob,','shake,--help,']
LET_X=var('let',(x,None))


def rows():
    """What each group of rows shows, and its rows: the words in front of the text, the text or its tree, and what is printed."""
    for k, body in cases.items():
        yield '%s: each is written as it was read' % k, [('--tree-only ', whole(s), '0\n%s\n' % text(whole(s))) for s in body]
    yield 'faults: the first one has the line that says why', [('--tree-only ', p, '5\n%s' % line) for _, p, line in faults]
    yield 'forms: what is written otherwise than it was read', [('--tree-only ', p, '0\n%s\n' % text(q)) for _, p, q in others]
    for words, p, q, passes, references in shaken:
        yield words, [('', p, '0\n%s\npasses %d references %d\n' % (text(q), passes, references))]
    yield 'texts as they are', [('', p, '0\n%s\npasses %d references 0\n' % (text(q), passes)) for p, q, passes in written]
    yield 'items of a body, and the first fault', [('', whole_text(p), '5\nshake: %s\n' % said) for p, said in items]
    yield 'nothing', [('--tree-only ', '', '4\nshake: not JSON\n')]
    yield 'texts that are no program', [('', p, '%d\nshake: %s\n' % (code, said)) for p, code, said in no_programs]
    yield 'let a; let a; in a script: what is ill formed', [('', prog([var('let', (a, None)), var('let', (a, None))], 'script'), '7\nshake: ill formed: rule 1 at 6\n')]
    yield 'faults of the outside, for an empty module', [(how + ':', prog([]), want) for how, want in outside]
    yield 'words that are refused, before anything is read', [('unread %s:' % words, prog([]), '1\nshake: usage: shake dce [--tree-only], or shake run\n') for words in refused]
    yield 'words that are accepted', [('words any name,dce,:', prog([]), '0\n' + LEFT), ('words shake,dce,--tree-only,:', prog([]), '0\n%s\n' % text(prog([])))]
    yield 'the codes of all answers', [('codes 0:', '', ''.join('%d\n' % code for code in [*range(10), 15, 16]))]
    yield 'where a program stands is read, and not written', [('span 0:', '{"type":"Program","start":1,"end":40,"sourceType":"script","body":[{"type":"DebuggerStatement","start":7,"end":4294967296}]}',
                                                                'at 1 40, children 1\n%s\n' % text(prog([DEBUGGER], 'script')))]
    yield 'the library call: empty statements leave', [('call dce:', prog([EMPTY]), 'passes 0 scopes 1\n%s\n' % text(prog([])))]
    yield 'nothing leaves without options', [('call none:', prog([EMPTY]), 'passes 0 scopes 1\n%s\n' % text(prog([EMPTY])))]
    yield 'what is ill formed stays', [('call smallest:', prog([RETURN(None)]), 'rule 6 of form is broken at 1\n%s\n' % text(prog([RETURN(None)])))]
    kept = [IMPORT('m', DEFAULT('b'), NAMED('a')), x_is(L(1)), F_('f', []), ES(L(1)), EMPTY]
    yield "the options say what is kept that nobody uses: import b, { a } from 'm'; let x = 1; function f() {} 1; ;", [
        ('call smallest:', prog(kept), 'passes 1 scopes 1\n%s\n' % text(prog([IMPORT('m')]))),
        ('call imports:', prog(kept), 'passes 1 scopes 1\n%s\n' % text(prog(kept[:1]))),
        ('call imports:', prog(kept[:1]), 'passes 0 scopes 1\n%s\n' % text(prog(kept[:1]))),
        ('call safest:', prog(kept), 'passes 1 scopes 2\n%s\n' % text(prog(kept[:3]))),
        ('call safest:', prog([x_is(CALL['expression'])]), 'passes 0 scopes 1\n%s\n' % text(prog([x_is(CALL['expression'])])))]
    again = [IMPORT('m', NAMED('a')), IMPORT('m')]
    yield "and an import without names is none of it: import { a } from 'm'; import 'm';", [
        ('call imports:', prog(again), 'passes 1 scopes 1\n%s\n' % text(prog(again[:1]))),
        ('call safest:', prog(again), 'passes 1 scopes 1\n%s\n' % text(prog(again[:1])))]
    passed = [IMPORT('m', NAMED('a')), LISTS('aa')]
    yield "nor one that only feeds an export: import { a } from 'm'; export { a };", [
        ('call imports:', prog(passed), 'passes 1 scopes 1\n%s\n' % text(prog([FROM('m', 'aa')]))),
        ('call safest:', prog(passed), 'passes 1 scopes 1\n%s\n' % text(prog([FROM('m', 'aa')])))]
    loop = lambda *body: N('WhileStatement', test=a, body=B(*body, CALL))
    yield 'the scopes are those of what is left: let x; { ; } () => { x; }; and, with while (a) { ; f(); } as well', [
        ('call dce:', prog([LET_X, B(EMPTY), ES(ARROW(ES(x)))]), 'passes 2 scopes 1\n%s\n' % text(prog([]))),
        ('call dce:', prog([LET_X, loop(EMPTY), B(EMPTY), ES(ARROW(ES(x)))]), 'passes 2 scopes 2\n%s\n' % text(prog([loop()])))]


def all_rows():
    import run_rows
    yield from rows()
    yield from run_rows.groups()


def line(words, p): return '%s%s\n' % (words, p if isinstance(p, str) else text(p))
def given(): return ''.join('// %s\n%s' % (what, ''.join(line(words, p) for words, p, _ in group)) for what, group in all_rows())
def wanted(): return ''.join('// %s\n%s' % (what, ''.join(want for _, _, want in group)) for what, group in all_rows())


FILES = {'test_shake/stdin': given, 'test_shake/stdout': wanted}

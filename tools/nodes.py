"""The node table: every way in which a type of ESTree stands in a tree. All else is generated from it.

A row says: its name, ESTree's type, the kind that it makes (a word behind it is a fixed argument), its weight,
whether runs are defined for the node itself (a text is a condition on the kind's arguments), and its fields in
reading order. A field is 'name sort'. Of rows that make the same kind the first is the one that is written.
"""

# Words that a field may hold one of: list of words, Rust's enum, its file, and each variant with its word.
WORDS = [
    ('source_types', 'SourceType', 'scalar', 'Module module, Script script, CommonJs commonjs'),
    ('variable_kinds', 'VariableKind', 'kind', 'Var var, Let let, Const const'),
    ('method_kinds', 'MethodKind', 'kind', 'Constructor constructor, Method method, Get get, Set set'),
    ('property_kinds', 'PropertyKind', 'kind', 'Init init, Get get, Set set'),
    ('unary_operators', 'UnaryOperator', 'operator',
     'LogicalNot !, UnaryNegation -, UnaryPlus +, BitwiseNot ~, Typeof typeof, Void void, Delete delete'),
    ('update_operators', 'UpdateOperator', 'operator', 'Increment ++, Decrement --'),
    ('binary_operators', 'BinaryOperator', 'operator',
     'Equality ==, Inequality !=, StrictEquality ===, StrictInequality !==, LessThan <, LessEqualThan <=, '
     'GreaterThan >, GreaterEqualThan >=, Addition +, Subtraction -, Multiplication *, Division /, Remainder %, '
     'Exponential **, ShiftLeft <<, ShiftRight >>, ShiftRightZeroFill >>>, BitwiseOr |, BitwiseXor ^, BitwiseAnd &, '
     'In in, Instanceof instanceof'),
    ('logical_operators', 'LogicalOperator', 'operator', 'Or ||, And &&, Coalesce ??'),
    ('assignment_operators', 'AssignmentOperator', 'operator',
     'Assign =, Addition +=, Subtraction -=, Multiplication *=, Division /=, Remainder %=, Exponential **=, '
     'ShiftLeft <<=, ShiftRight >>=, ShiftRightZeroFill >>>=, BitwiseOr |=, BitwiseXor ^=, BitwiseAnd &=, '
     'LogicalOr ||=, LogicalAnd &&=, LogicalNullish ??='),
]
# Families of kinds: plain enums without a word of their own.
FAMILIES = [('FunctionKind', 'kind', 'Declaration Expression Arrow'), ('ClassKind', 'kind', 'Declaration Expression')]

FUNCTION = 'generator never; async never; expression is_expression; noSideEffects a_mark'
PATTERN_PROPERTY = 'kind constant "init"; computed is_computed; method never; shorthand is_shorthand; key a_key property_key'

# row | type | kind | weight | core | fields
ROWS = '''
a_program | Program | program | 4 | yes | sourceType a_word source_types; body a_body module_item
a_directive | ExpressionStatement | directive | 2 | yes | directive a_text; expression child directive_text
an_expression_statement | ExpressionStatement | expression_statement | 2 | yes | expression child expression
a_block_statement | BlockStatement | block_statement | 2 | yes | body each statements statement
a_function_body | BlockStatement | function_body | 2 | yes | body a_body statement
an_empty_statement | EmptyStatement | empty_statement | 1 | yes |
a_debugger_statement | DebuggerStatement | debugger_statement | 4 | yes |
a_with_statement | WithStatement | with_statement | 4 | no | object child expression; body child statement
a_return_statement | ReturnStatement | return_statement | 4 | yes | argument maybe expression
a_labeled_statement | LabeledStatement | labeled_statement | 4 | yes | label a_name; body child statement
a_break_statement | BreakStatement | break_statement | 4 | yes | label maybe_name
a_continue_statement | ContinueStatement | continue_statement | 4 | yes | label maybe_name
an_if_statement | IfStatement | if_statement | 4 | yes | test child expression; consequent child statement; alternate maybe statement
a_switch_statement | SwitchStatement | switch_statement | 4 | yes | discriminant child expression; cases each cases case_item
a_switch_case | SwitchCase | switch_case | 2 | yes | test maybe expression; consequent each statements statement
a_throw_statement | ThrowStatement | throw_statement | 4 | yes | argument child expression
a_try_statement | TryStatement | try_statement | 4 | yes | block child block; handler maybe handler; finalizer maybe block
a_catch_clause | CatchClause | catch_clause | 2 | yes | param maybe binding; body child block
a_while_statement | WhileStatement | while_statement | 4 | yes | test child expression; body child statement
a_do_while_statement | DoWhileStatement | do_while_statement | 4 | yes | body child statement; test child expression
a_for_statement | ForStatement | for_statement | 4 | yes | init maybe for_init; test maybe expression; update maybe expression; body child statement
a_for_in_statement | ForInStatement | for_in_statement | 4 | no | left child for_left; right child expression; body child statement
a_for_of_statement | ForOfStatement | for_of_statement | 4 | no | left child for_left; right child expression; body child statement; await never
a_function_declaration | FunctionDeclaration | function Declaration | 6 | yes | id child declared_name; params each parameters binding_element; body child function_block; FUNCTION
a_default_function | FunctionDeclaration | function Declaration | 6 | yes | id maybe declared_name; params each parameters binding_element; body child function_block; FUNCTION
a_function_expression | FunctionExpression | function Expression | 6 | yes | id maybe declared_name; params each parameters binding_element; body child function_block; FUNCTION
an_arrow_function | ArrowFunctionExpression | function Arrow | 6 | yes | id maybe no_node; params each parameters binding_element; body child arrow_body; expression is_expression; generator never; async never; noSideEffects a_mark
a_variable_declaration | VariableDeclaration | variable_declaration | 2 | yes | kind a_word variable_kinds; declarations each declarators declarator_item
a_variable_declarator | VariableDeclarator | variable_declarator | 0 | yes | id child binding; init maybe expression
a_class_declaration | ClassDeclaration | class Declaration | 6 | no | id child declared_name; superClass maybe expression; body child class_block
a_default_class | ClassDeclaration | class Declaration | 6 | no | id maybe declared_name; superClass maybe expression; body child class_block
a_class_expression | ClassExpression | class Expression | 6 | no | id maybe declared_name; superClass maybe expression; body child class_block
a_class_body | ClassBody | class_body | 1 | no | body each members class_item
a_method_definition | MethodDefinition | method_definition | 6 | no | kind a_word method_kinds; computed is_computed; static a_flag; key a_key class_key; value child method_value
a_property_definition | PropertyDefinition | property_definition | 6 | no | computed is_computed; static a_flag; key a_key class_key; value maybe expression
a_static_block | StaticBlock | static_block | 6 | no | body each statements statement
a_binding_name | Identifier | binding_name | 6 | yes | name a_text
a_reference_name | Identifier | reference_name | 6 | yes | name a_text
a_target_name | Identifier | target_name | 6 | yes | name a_text
a_private_name | PrivateIdentifier | private_name | 6 | no | name a_text
a_literal | Literal | literal | value_weight value | yes | value a_value
a_text_literal | Literal | literal | = | = | value a_value
a_reg_exp | Literal | reg_exp | 4 | no | regex a_reg_exp_text; value unread the_empty_object
a_this_expression | ThisExpression | this_expression | 6 | yes |
a_super | Super | super | 6 | no |
an_array_expression | ArrayExpression | array_expression | 3 | yes | elements each_or_hole elements argument
an_object_expression | ObjectExpression | object_expression | 3 | yes | properties each properties object_item
a_property | Property | property | 6 | is_plain_property how key | kind a_word property_kinds; computed is_computed; method a_flag; shorthand is_shorthand; key a_key property_key; value child expression
a_method_property | Property | property | = | = | kind a_word property_kinds; computed is_computed; method a_flag; shorthand is_shorthand; key a_key property_key; value child method_value
a_sequence_expression | SequenceExpression | sequence_expression | 2 | yes | expressions each expressions expression
a_unary_expression | UnaryExpression | unary_expression | 4 | is_core_unary operator | operator a_word unary_operators; argument child expression; prefix unread the_flag true
an_update_expression | UpdateExpression | update_expression | 6 | yes | operator a_word update_operators; prefix a_flag; argument child simple_target
a_binary_expression | BinaryExpression | binary_expression | 5 | is_core_binary operator | operator a_word binary_operators; left child expression; right child expression
an_in_expression | BinaryExpression | binary_expression | = | = | operator a_word binary_operators; left child expression_or_private; right child expression
a_logical_expression | LogicalExpression | logical_expression | 5 | yes | operator a_word logical_operators; left child expression; right child expression
an_assignment_expression | AssignmentExpression | assignment_expression | 6 | is_core_assignment operator | operator a_word assignment_operators; left child target; right child expression
a_compound_assignment | AssignmentExpression | assignment_expression | = | = | operator a_word assignment_operators; left child simple_target; right child expression
a_conditional_expression | ConditionalExpression | conditional_expression | 6 | yes | test child expression; consequent child expression; alternate child expression
a_call_expression | CallExpression | call_expression | 6 | not optional | callee child callee; arguments each arguments argument; optional a_flag; pure a_mark
a_new_expression | NewExpression | new_expression | 6 | yes | callee child expression; arguments each arguments argument; pure a_mark
a_member_expression | MemberExpression | member_expression | 6 | not optional | object child callee; property a_key member_key; computed is_computed; optional a_flag
a_chain_expression | ChainExpression | chain_expression | 1 | no | expression child chain_part
a_parenthesized_expression | ParenthesizedExpression | parenthesized_expression | 1 | yes | expression child expression
a_parenthesized_target | ParenthesizedExpression | parenthesized_expression | = | = | expression child simple_target
a_template_literal | TemplateLiteral | template_literal | 4 | no | quasis each quasis quasi_item; expressions each expressions expression
a_template_element | TemplateElement | template_element | template_weight value | no | value a_template_text; tail a_flag
a_tagged_template_expression | TaggedTemplateExpression | tagged_template_expression | 6 | no | tag child expression; quasi child template
a_spread_element | SpreadElement | spread_element | 2 | no | argument child expression
a_binding_rest | RestElement | binding_rest | 2 | no | argument child binding
a_target_rest | RestElement | target_rest | 2 | no | argument child target
a_binding_object | ObjectPattern | binding_object | 6 | no | properties each properties binding_item
a_target_object | ObjectPattern | target_object | 6 | no | properties each properties target_item
a_binding_array | ArrayPattern | binding_array | 6 | no | elements each_or_hole elements binding_element
a_target_array | ArrayPattern | target_array | 6 | no | elements each_or_hole elements target_element
a_binding_property | Property | binding_property | 6 | no | PATTERN_PROPERTY; value child binding_value
a_target_property | Property | target_property | 6 | no | PATTERN_PROPERTY; value child target_value
a_binding_default | AssignmentPattern | binding_default | 6 | no | left child binding; right child expression
a_target_default | AssignmentPattern | target_default | 6 | no | left child target; right child expression
a_new_target | MetaProperty | new_target | 6 | no | meta fixed_name "new"; property fixed_name "target"
an_import_meta | MetaProperty | import_meta | 6 | no | meta fixed_name "import"; property fixed_name "meta"
an_import_expression | ImportExpression | import_expression | 6 | no | source child expression
an_import_declaration | ImportDeclaration | import_declaration | 6 | yes | specifiers each specifiers import_item; source a_source
an_import_specifier | ImportSpecifier | import_specifier | 6 | yes | imported a_module_name; local child declared_name
an_import_default_specifier | ImportDefaultSpecifier | import_default_specifier | 6 | yes | local child declared_name
an_import_namespace_specifier | ImportNamespaceSpecifier | import_namespace_specifier | 6 | yes | local child declared_name
an_export_list | ExportNamedDeclaration | export_named_declaration None | 6 | yes | declaration maybe no_node; specifiers each specifiers export_item; source null_only
an_export_declaration | ExportNamedDeclaration | export_named_declaration None | 6 | yes | declaration child declaration; specifiers each specifiers no_node; source null_only
an_export_from | ExportNamedDeclaration | export_named_declaration Some | 6 | yes | declaration maybe no_node; specifiers each specifiers foreign_item; source a_source
an_export_specifier | ExportSpecifier | export_specifier | 6 | yes | local child read_name; exported a_module_name
a_foreign_specifier | ExportSpecifier | foreign_specifier | 6 | yes | local a_module_name; exported a_module_name
an_export_default_declaration | ExportDefaultDeclaration | export_default_declaration | 6 | yes | declaration child default_export
an_export_all_declaration | ExportAllDeclaration | export_all_declaration | 6 | yes | exported maybe_module_name; source a_source
'''

# Kinds that are no row: lists, which are a field of the node above them, and the hole of an array.
LISTS = 'statements cases declarators parameters members elements properties expressions arguments quasis specifiers'.split()

EXPRESSIONS = '''a_reference_name a_literal a_this_expression an_array_expression an_object_expression a_function_expression
an_arrow_function a_class_expression a_unary_expression an_update_expression a_binary_expression a_logical_expression
an_assignment_expression a_conditional_expression a_call_expression a_new_expression a_member_expression
a_chain_expression a_parenthesized_expression a_sequence_expression a_template_literal a_tagged_template_expression
a_new_target an_import_expression'''
STATEMENTS = '''an_expression_statement a_block_statement an_empty_statement a_debugger_statement a_with_statement
a_return_statement a_labeled_statement a_break_statement a_continue_statement an_if_statement a_switch_statement
a_throw_statement a_try_statement a_while_statement a_do_while_statement a_for_statement a_for_in_statement
a_for_of_statement a_function_declaration a_variable_declaration a_class_declaration'''

# What may be wanted at a place: the class, what that is, a class whose rows stand there too, and its own rows.
CLASSES = [
    ('root', 'a whole program', '', 'a_program'),
    ('a_prologue', 'a directive at the head of a body', '', 'a_directive'),
    ('module_item', "an item of the program's body", 'statement',
     'an_import_declaration an_export_list an_export_default_declaration an_export_all_declaration'),
    ('statement', 'a statement or declaration', '', STATEMENTS),
    ('block', 'a block', '', 'a_block_statement'),
    ('function_block', "a function's body", '', 'a_function_body'),
    ('arrow_body', "an arrow's body", 'expression', 'a_function_body'),
    ('handler', 'a catch clause', '', 'a_catch_clause'),
    ('case_item', 'a case of a switch', '', 'a_switch_case'),
    ('declarator_item', 'a declarator', '', 'a_variable_declarator'),
    ('for_init', 'what stands first in the head of `for`', 'expression', 'a_variable_declaration'),
    ('for_left', 'what stands first in the head of `for`-`in` and `for`-`of`', 'target', 'a_variable_declaration'),
    ('declaration', 'what `export` stands before', '', 'a_variable_declaration a_function_declaration a_class_declaration'),
    ('default_export', 'what `export default` stands before', 'expression', 'a_default_function a_default_class'),
    ('class_block', "a class's body", '', 'a_class_body'),
    ('class_item', 'a member of a class', '', 'a_method_definition a_property_definition a_static_block'),
    ('method_value', 'the function of a method', '', 'a_function_expression'),
    ('declared_name', 'a name that is declared', '', 'a_binding_name'),
    ('read_name', 'a name that is read', '', 'a_reference_name'),
    ('private_key', 'a private name', '', 'a_private_name'),
    ('expression', 'an expression', '', EXPRESSIONS),
    ('expression_or_private', 'what stands left of `in`', 'expression', 'a_private_name'),
    ('callee', 'what is called, or whose member is taken', 'expression', 'a_super'),
    ('argument', 'an argument or an element', 'expression', 'a_spread_element'),
    ('object_item', 'a property of an object', '', 'a_property a_spread_element'),
    ('chain_part', 'what an optional chain is', '', 'a_call_expression a_member_expression'),
    ('template', 'the template behind a tag', '', 'a_template_literal'),
    ('quasi_item', 'a text of a template', '', 'a_template_element'),
    ('directive_text', 'the literal of a directive', '', 'a_text_literal'),
    ('binding', 'what is declared', '', 'a_binding_name a_binding_object a_binding_array'),
    ('binding_value', 'what is declared, with or without a default', 'binding', 'a_binding_default'),
    ('binding_element', 'a parameter, or an element of a pattern', 'binding_value', 'a_binding_rest'),
    ('binding_item', 'a property of a pattern', '', 'a_binding_property a_binding_rest'),
    ('simple_target', 'a name or member that is assigned', '', 'a_target_name a_member_expression a_parenthesized_target'),
    ('target', 'what is assigned', 'simple_target', 'a_target_object a_target_array'),
    ('target_value', 'what is assigned, with or without a default', 'target', 'a_target_default'),
    ('target_element', 'an element of a pattern that is assigned', 'target_value', 'a_target_rest'),
    ('target_item', 'a property of a pattern that is assigned', '', 'a_target_property a_target_rest'),
    ('import_item', 'what an import names', '', 'an_import_specifier an_import_default_specifier an_import_namespace_specifier'),
    ('export_item', 'what an export names', '', 'an_export_specifier'),
    ('foreign_item', 'what an export from a source names', '', 'a_foreign_specifier'),
    ('no_node', 'nothing: whatever stands there is wrong', '', ''),
]

# Sorts of fields that are no nodes. Those that the kind keeps: the type of what is read, and how it is written.
KEPT = {
    'a_text': ('List ℕ', 'the_text'), 'a_flag': ('Bool', 'the_flag'), 'a_mark': ('Bool', 'the_mark'),
    'a_value': ('Value', 'the_value'), 'a_name': ('List ℕ', 'the_name'), 'maybe_name': ('Option (List ℕ)', 'the_name_or_null'),
    'a_module_name': ('ModuleName', 'the_module_name'), 'maybe_module_name': ('Option ModuleName', 'the_module_name_or_null'),
    'a_source': ('List ℕ', 'the_source'), 'a_template_text': ('TemplateText', 'the_template_text'),
    'a_reg_exp_text': ('RegExpText', 'the_reg_exp_text'),
}
HINTS = ['is_computed', 'is_expression', 'is_shorthand']
CHECKS = ['never', 'constant', 'fixed_name', 'null_only', 'unread'] + HINTS

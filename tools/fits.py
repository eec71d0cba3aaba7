"""json_fits: which rows of the table may make a kind."""
from table import *

NUMBERS = {r.name: i for i, r in enumerate(ROWS)}
KINDS = list(dict.fromkeys(r.kind for r in ROWS))
# Rows between which the values of a kind decide.
TWO = {'property': ('is_method how method', 'a_method_property', 'a_property'),
       'binary_expression': ('is_in operator', 'an_in_expression', 'a_binary_expression'),
       'assignment_expression': ('is_plain operator', 'an_assignment_expression', 'a_compound_assignment')}
# Rows that make what another row makes too, and stand elsewhere.
SECOND = [('(literal (literal_value.Text s))', 'a_text_literal'), ('(function function_kind.Declaration pure)', 'a_default_function'), ('(class class_kind.Declaration)', 'a_default_class'), ('(export_named_declaration None)', 'an_export_declaration')]
LIST_KINDS = ['hole'] + LISTS
KIND_USES = 'use Rattle.js_syntax.specs.declared.node_kind.NodeKind.{NodeKind as Kind}\nuse Rattle.js_syntax.specs.declared.node_kind.NodeKind.TheVariants.{%s}\n' % ', '.join('%s as %s' % (camel(k), k) for k in KINDS + LIST_KINDS)


KINDS_OF_ALL = KIND_USES + 'use Rattle.js_syntax.specs.declared.kind.FunctionKind.TheVariants as function_kind\nuse Rattle.js_syntax.specs.declared.kind.ClassKind.TheVariants as class_kind\n'

def firsts(): return [r for r in written() if r.name != 'a_parenthesized_target']
def first(r): return 'if %s then Some %s else Some %s' % TWO[r.kind] if r.kind in TWO else 'Some ' + r.name


def rows_spec():
    out = '-- Which rows of the table may make a kind.\n-- %s\n' % GENERATED
    out += 'use Rattle.std.specs.Prelude.{ℕ, List, [], ◌∷◌, Option, Some, None, if◌then◌else◌}\n'
    out += KINDS_OF_ALL
    out += 'use Rattle.js_syntax.specs.declared.value.LiteralValue.TheVariants as literal_value\n'
    out += 'use Rattle.js_syntax.specs.Table.{Row, %s}\n' % ', '.join(r.name for r in ROWS)
    out += 'use Rattle.json_shape.specs.Shape.{is_in, is_plain, is_method}\n\n'
    out += '-- the row that makes it, where its values decide between two by them\nabbrev pub first_row : Kind → Option Row\n'
    for r in firsts(): out += 'first_row %s = %s\n' % (r.pattern(), first(r))
    for k in LIST_KINDS: out += 'first_row %s = None\n' % k
    out += '\n-- another row that makes the same, and stands elsewhere or has other fields\nabbrev pub second_row : Kind → Option Row\n'
    for k, r in SECOND: out += 'second_row %s = Some %s\n' % (k, r)
    out += 'second_row k = None\n\n-- the number of a row\nabbrev pub number : Row → ℕ\n'
    for r in ROWS: out += 'number %s = %d\n' % (r.name, NUMBERS[r.name])
    out += '\nabbrev pub all_rows : List Row\nall_rows = %s ∷ []\n' % ' ∷ '.join(r.name for r in ROWS)
    return out


def filled(r):
    """The values of a row, from the variables of its pattern."""
    out = 'tt'
    for f in reversed(r.kept): out = '(%s, %s)' % (f.variable(), out)
    return out


def made(r, chosen='tt'): return 'record { values = %s; chosen = %s; makes = refl; places = λ private. refl }' % (filled(r), chosen)


def rows_proof():
    out = '-- The rows that may make a kind make it, and no other does.\n-- %s\n' % GENERATED
    out += 'use Rattle.std.proofs.Common.{◌≡◌, ◌⊎◌, inl, inr, Bool, true, false, Option, Some, None, if◌then◌else◌, slice_index_or, refl, ap}\n'
    out += KINDS_OF_ALL
    out += 'use Rattle.js_syntax.specs.declared.value.LiteralValue.{LiteralValue as Value}\nuse Rattle.js_syntax.specs.declared.value.LiteralValue.TheVariants as literal_value\n'
    out += 'use Rattle.js_syntax.specs.Table.{Row, %s, fields_of}\n' % ', '.join(r.name for r in ROWS)
    out += 'use Rattle.json_shape.specs.Shape.{Values, kind_in, is_in, is_plain, is_method, is_text, IsChosen, places}\n'
    out += 'use Rattle.json_fits.specs.Rows.{first_row, second_row, number, all_rows}\nuse Rattle.json_fits.specs.Fitting.{key_of, places_by}\n\n'
    out += '''-- a row makes the kind, by its key's places
pub record Makes (k : Kind) (r : Row) : Type 0 where
  pub values : Values (fields_of r)
  pub chosen : IsChosen r values
  pub makes : k ≡ kind_in r values
  pub places : (private : Bool) → places private (fields_of r) values ≡ places_by private (key_of k) (fields_of r)

abbrev pub IfRow : (Row → Type 0) → Option Row → Type 0
IfRow P None = Unit {0}
IfRow P (Some r) = P r

either : (P : Row → Type 0) (b : Bool) (r s : Row) → (b ≡ true → P r) → (b ≡ false → P s) → IfRow P (if b then Some r else Some s)
either P true r s f g = f refl
either P false r s f g = g refl

pub first_makes : (k : Kind) → IfRow (Makes k) (first_row k)
'''
    for r in firsts():
        if r.kind in TWO:
            test, yes, no = TWO[r.kind]
            out += 'first_makes %s = either (Makes %s) (%s) %s %s (λ h. %s) (λ h. %s)\n' % (r.pattern(), r.pattern(), test, yes, no, made(ROW[yes], 'h'), made(ROW[no], 'h'))
        else: out += 'first_makes %s = %s\n' % (r.pattern(), made(r))
    for k in LIST_KINDS: out += 'first_makes %s = tt\n' % k
    out += '\npub second_makes : (k : Kind) → IfRow (Makes k) (second_row k)\n'
    for k, r in SECOND:
        values = {'a_text_literal': '(literal_value.Text s, tt)', 'a_default_function': '(pure, tt)'}.get(r, 'tt')
        out += 'second_makes %s = record { values = %s; chosen = %s; makes = refl; places = λ private. refl }\n' % (k, values, 'refl' if r == 'a_text_literal' else 'tt')
    out += 'second_makes k = tt\n\n-- and no other\nabbrev pub IsOne : Kind → Row → Type 0\nIsOne k r = (first_row k ≡ Some r) ⊎ (second_row k ≡ Some r)\n\n'
    out += '''text_row : (v : Value) → is_text v ≡ true → IsOne (literal v) a_text_literal
text_row (literal_value.Text s) h = inr refl
text_row v h = absurd cc

pub all_made : (r : Row) (vs : Values (fields_of r)) → IsChosen r vs → IsOne (kind_in r vs) r
'''
    for r in ROWS:
        two = [(y, n) for t, y, n in TWO.values() if r.name in (y, n)]
        if r.name == 'a_text_literal': out += 'all_made a_text_literal vs chosen = text_row vs.0 chosen\n'
        elif r.name == 'a_parenthesized_target': out += 'all_made a_parenthesized_target vs chosen = absurd chosen\n'
        elif two: out += 'all_made %s vs chosen = inl (ap (λ (b : Bool). if b then Some %s else Some %s) chosen)\n' % (r.name, two[0][0], two[0][1])
        elif r.name in [s for _, s in SECOND]: out += 'all_made %s vs chosen = inr refl\n' % r.name
        else: out += 'all_made %s vs chosen = inl refl\n' % r.name
    out += '\n-- with its places\npub places_made : (r : Row) (vs : Values (fields_of r)) (private : Bool) → places private (fields_of r) vs ≡ places_by private (key_of (kind_in r vs)) (fields_of r)\n'
    for r in ROWS: out += 'places_made %s vs private = refl\n' % r.name
    out += '\n-- a row has its number alone\npub row_numbered : (r : Row) → slice_index_or all_rows (number r) a_program ≡ r\n'
    for r in ROWS: out += 'row_numbered %s = refl\n' % r.name
    return out


def code():
    variants = variants_of_kind()
    code_row = lambda name: 'Row::' + camel(name.split('_', 1)[1])
    out = '// Which rows of the table may make a kind.\n// %s\n' % GENERATED
    out += 'ghost use Rattle.std.specs.Prelude.{◌≡◌, if◌then◌else◌};\nghost use Rattle.std.specs.Option.{option_map};\nghost use Rattle.js_syntax.specs.Table as table;\nghost use Rattle.json_table.specs.View.{row_view};\nghost use Rattle.json_shape.specs.Shape.{is_in, is_plain, is_method};\nghost use Rattle.json_fits.specs.Rows as rows;\n\n'
    out += 'use js_syntax::{AssignmentOperator, BinaryOperator, ClassKind, FunctionKind, LiteralValue, NodeKind, PropertyKind};\nuse json_table::Row;\n\n'
    out += '''fn is_in(operator: BinaryOperator) -> bool
    ensures { result ≡ is_in operator }
{
    matches!(operator, BinaryOperator::In)
}

fn is_plain(operator: AssignmentOperator) -> bool
    ensures { result ≡ is_plain operator }
{
    matches!(operator, AssignmentOperator::Assign)
}

fn is_method(how: PropertyKind, method: bool) -> bool
    ensures { result ≡ is_method how method }
{
    matches!(how, PropertyKind::Get | PropertyKind::Set) || method
}

'''
    for kind, (test, yes, no) in TWO.items():
        args = {'property': 'how: PropertyKind, method: bool', 'binary_expression': 'operator: BinaryOperator', 'assignment_expression': 'operator: AssignmentOperator'}[kind]
        call = {'property': 'is_method(how, method)', 'binary_expression': 'is_in(operator)', 'assignment_expression': 'is_plain(operator)'}[kind]
        out += 'fn %s_row(%s) -> Option<Row>\n    ensures { option_map row_view result ≡ (if %s then Some table.%s else Some table.%s) }\n{\n' % (kind, args, test, yes, no)
        out += '    if %s { Some(%s) } else { Some(%s) }\n}\n\n' % (call, code_row(yes), code_row(no))
    out += '/// The row that makes a kind of node.\npub(crate) fn first_row(kind: &NodeKind) -> Option<Row>\n    ensures { option_map row_view result ≡ rows.first_row kind.now }\n{\n    match kind {\n'
    for r in firsts():
        v = variants[r.kind]
        if r.kind == 'property': out += '        NodeKind::Property { kind, is_method, key: _ } => property_row(*kind, *is_method),\n'
        elif r.kind in TWO: out += '        NodeKind::%s(operator) => %s_row(*operator),\n' % (v.name, r.kind)
        elif family_of(r.kind):
            word = '%s::%s' % (family_of(r.kind), r.fixed[0])
            out += '        %s => Some(%s),\n' % (v.filled([word] + ['_'] * (len(v.fields) - 1)), code_row(r.name))
        elif r.fixed: out += '        NodeKind::%s(%s) => Some(%s),\n' % (v.name, {'None': 'None', 'Some': 'Some(_)'}[r.fixed[0]], code_row(r.name))
        else: out += '        %s => Some(%s),\n' % (v.ignored(), code_row(r.name))
    for k in LIST_KINDS: out += '        NodeKind::%s => None,\n' % camel(k)
    out += '''    }
}

/// Another row that makes the same.
pub(crate) fn second_row(kind: &NodeKind) -> Option<Row>
    ensures { option_map row_view result ≡ rows.second_row kind.now }
{
    match kind {
        NodeKind::Literal(LiteralValue::Text(_)) => Some(Row::TextLiteral),
        %s => Some(Row::DefaultFunction),
        NodeKind::Class(ClassKind::Declaration) => Some(Row::DefaultClass),
        NodeKind::ExportNamedDeclaration(None) => Some(Row::ExportDeclaration),
        _ => None,
    }
}

/// The number of a row.
pub(crate) fn number(row: Row) -> u8
    ensures { result ≡ rows.number (row_view row) }
{
    match row {
''' % variants['function'].filled(['FunctionKind::Declaration'] + ['_'] * (len(variants['function'].fields) - 1))
    for r in ROWS: out += '        %s => %d,\n' % (code_row(r.name), NUMBERS[r.name])
    return out + '    }\n}\n'


FILES = {'json_fits/specs/Rows.antt': rows_spec, 'json_fits/proofs/Made.antt': rows_proof, 'json_fits/src/rows.rt': code}

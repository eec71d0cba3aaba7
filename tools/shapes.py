"""json_shape: what stands in the object that is written of a node of each row."""
from table import *

FACTS = ['type', 'object', 'bigint', 'start', 'ends', 'extras', 'directive', 'scalars']


def holds(row):
    out = 'tt'
    for f in reversed(row.fields):
        if f.head == 'a_key': out = '(refl, refl, %s)' % out
        elif f.head == 'a_value': out = '((refl, refl), %s)' % out
        else: out = '(refl, %s)' % out
    return out


def facts(row): return 'record { fields = %s; %s }' % (holds(row), '; '.join('%s = refl' % f for f in FACTS))


def written():
    body, cases = '', ''
    for row in ROWS:
        marks = [i for i, f in enumerate(row.kept) if f.head == 'a_mark']
        if row.name in ('a_literal', 'a_text_literal'):
            cases += 'written %s vs below nodes chosen exact = %s vs.0 below nodes%s exact\n' % (row.name, row.name[2:], '' if row.name == 'a_literal' else ' chosen')
        elif row.name == 'a_parenthesized_target':
            cases += 'written %s vs below nodes chosen exact = absurd chosen\n' % row.name
        elif marks:
            names = [f.variable() for f in row.kept]
            values = 'tt'
            for n in reversed(names): values = '(%s, %s)' % (n, values)
            lemma = row.name.split('_', 1)[1]
            body += '%s : (%s : Bool) (below : Forest) (nodes : List Data) → IsWritten %s %s below nodes\nunfolding looked_at\n' % (lemma, ' '.join(names), row.name, values)
            for mark in ('true', 'false'):
                body += '%s %s below nodes = %s\n' % (lemma, ' '.join(names[:-1] + [mark]), facts(row))
            body += '\n'
            access = ['vs.0', 'vs.1.0'][:len(names)]
            cases += 'written %s vs below nodes chosen exact = %s %s below nodes\n' % (row.name, lemma, ' '.join(access))
        else:
            cases += 'written %s vs below nodes chosen exact = %s\n' % (row.name, facts(row))
    literal = facts(ROW['a_literal'])
    body += '''literal : (v : Value) (below : Forest) (nodes : List Data) → inexact (literal_kind v) ≡ 0 → IsWritten a_literal (v, tt) below nodes
unfolding looked_at
literal value.Null below nodes exact = %s
literal (value.Boolean b) below nodes exact = %s
literal (value.Number (pos n)) below nodes exact = %s
literal (value.Number (negsuc n)) below nodes exact = absurd (omega (arith, exact))
literal (value.Text s) below nodes exact = %s

text_literal : (v : Value) (below : Forest) (nodes : List Data) → is_text v ≡ true → inexact (literal_kind v) ≡ 0 → IsWritten a_text_literal (v, tt) below nodes
unfolding looked_at
text_literal value.Null below nodes chosen exact = absurd cc
text_literal (value.Boolean b) below nodes chosen exact = absurd cc
text_literal (value.Number n) below nodes chosen exact = absurd cc
text_literal (value.Text s) below nodes chosen exact = %s

''' % (literal, literal, literal, literal, literal)
    body += '-- what is written of the node that a row makes\npub written : (r : Row) (vs : Values (fields_of r)) (below : Forest) (nodes : List Data) → IsChosen r vs → inexact (kind_in r vs) ≡ 0 → IsWritten r vs below nodes\nunfolding looked_at\n' + cases
    head = '-- What is written of each row.\n-- %s\nuse Rattle.std.proofs.Common.{◌≡◌, pos, negsuc, List, Bool, true, false, refl, arith}\n' % GENERATED
    head += 'use Rattle.serde_json.specs.Data.{Data}\n'
    head += 'use Rattle.js_syntax.specs.declared.value.LiteralValue.{LiteralValue as Value}\nuse Rattle.js_syntax.specs.declared.value.LiteralValue.TheVariants as value\n'
    head += 'use Rattle.js_syntax.specs.declared.node_kind.NodeKind.TheVariants.{Literal as literal_kind}\n'
    head += 'use Rattle.js_syntax.specs.Node.{Forest}\nuse Rattle.js_syntax.specs.Table.{Row, %s, fields_of}\n' % ', '.join(r.name for r in ROWS)
    head += 'use Rattle.json_text.specs.Plain.{check_extra, check_extras}\nuse Rattle.json_text.specs.Reading.{is_directive}\n'
    head += 'use Rattle.json_shape.specs.Shape.{Values, kind_in, is_text, IsChosen}\nuse Rattle.json_shape.specs.Exact.{inexact}\nuse Rattle.json_shape.proofs.Facts.{IsWritten}\n\n'
    head += '-- what computes on the fields of a node that was written\nunfoldable looked_at : Unit {0}\nunfolding check_extra check_extras is_directive\nlooked_at = tt\n\n'
    return head + body


FILES = {'json_shape/proofs/Written.antt': written}

"""js_tree_equal: whether two kinds are equal."""
from table import *

SIGNATURE = """/// Whether two kinds are equal, with all that they carry.
pub fn same_kind(one: &NodeKind, other: &NodeKind) -> bool
    ensures same { IsTrue result ↔ (one.now ≡ other.now) }
{
    match one {
"""


def test(name, rust): return 'same_%s(%s, other_%s)' % (OWNED[rust], name, name) if rust in OWNED else '*%s == *other_%s' % (name, name)


def arm(v):
    names = [n for n, _ in v.fields]
    if not names: return '        NodeKind::%s => matches!(other, NodeKind::%s),\n' % (v.name, v.name)
    both = ' && '.join(test(n, t) for n, t in v.fields)
    return '        %s => match other {\n            %s => %s,\n            _ => false,\n        },\n' % (v.filled(names), v.filled(['other_' + n for n in names]), both)


def kind_file():
    uses = ('◌≡◌, ◌↔◌, IsTrue', 'same', ['Ident', 'Option<Ident>', 'Option<Text>', 'Text'], 'use js_syntax::NodeKind;\n')
    return over_kinds('Whether two kinds are equal.', uses, SIGNATURE, [arm(v) for v in variants_of_kind().values()])


FILES = {'js_tree_equal/src/kind.rt': kind_file}

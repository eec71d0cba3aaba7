"""js_tree_copy: a copy of a node's kind."""
from table import *

SIGNATURE = """/// A copy of a kind. The only error is want of memory.
pub fn clone_kind(alloc: Global, kind: &NodeKind) -> Result<NodeKind, AllocError>
    ensures equal { IfOk result (λ k. k ≡ kind.now) }
{
    match kind {
"""


def attempted(name, rust): return '%s.try_clone(alloc)' % name if rust in ('Ident', 'Text') else 'clone_%s(alloc, %s)' % (OWNED[rust], name)
def copied(name, rust): return attempted(name, rust) + '?' if rust in OWNED else '*' + name


def arm(v):
    names = [n if n != 'kind' else 'how' for n, _ in v.fields]
    types = [t for _, t in v.fields]
    if len(types) == 1 and types[0] in OWNED: return '        %s => %s.map(NodeKind::%s),\n' % (v.filled(names), attempted(names[0], types[0]), v.name)
    return '        %s => Ok(%s),\n' % (v.filled(names), v.filled([copied(n, t) for n, t in zip(names, types)]))


def kind_file():
    uses = ('◌≡◌, IfOk', 'clone', ['Option<Ident>', 'Option<Text>'], 'use js_syntax::NodeKind;\nuse std::alloc::{AllocError, Global};\n')
    return over_kinds('A copy of a kind.', uses, SIGNATURE, [arm(v) for v in variants_of_kind().values()])


FILES = {'js_tree_copy/src/kind.rt': kind_file}

"""json_read: the kind of a node of each row."""
from table import *
from run_table import bare, KEPT_NAMES

WORD_FIELDS = {e: snake(e) + '_field' for _, e, _, _ in WORDS}


def read_of(row, f):
    """The call that reads a field, and what of it may fail."""
    place = 'place_of(node_type, "%s")' % f.name
    if f.head == 'a_word': return '%s(node, %s)?' % (WORD_FIELDS[ENUM[f.rest[0]]], place)
    if f.head == 'a_flag': return 'flag_field(node, %s)?' % place
    if f.head == 'a_key': return 'key(alloc, node, Keys::%s, %s)?' % (camel(f.rest[0]), place)
    if f.head == 'a_mark': return 'is_marked(node, "%s")' % f.name
    call = {'a_text': 'text' if rust_type(row, f) == 'Text' else 'ident', 'a_value': 'value', 'a_name': 'name', 'maybe_name': 'optional_name',
            'a_module_name': 'module_name', 'maybe_module_name': 'optional_module_name', 'a_source': 'source', 'a_template_text': 'template_text',
            'a_reg_exp_text': 'reg_exp_text'}[f.head]
    return '%s(alloc, node, %s)?' % (call, place)


def made(row, values):
    v = variants_of_kind()[row.kind]
    if row.fixed == ['None']: return v.filled(['None'])
    if row.fixed == ['Some']: return v.filled(['Some(%s)' % values[0]])
    return v.filled(['%s::%s' % (family_of(row.kind), x) for x in row.fixed] + values)


def name_of(row): return snake(bare(row.name)) + '_kind'


def variable(f): return {'static': 'is_static', 'kind': 'kind', 'source': 'module', 'value': 'found', 'name': 'written', 'key': 'found_key', 'property': 'found_key'}.get(f.name, rust_name(f))


def simple(row): return all(f.head == 'a_mark' for f in row.kept)


def copies(row):
    """Whether a text of the node is copied, which takes memory."""
    return any(f.head not in ('a_mark', 'a_flag', 'a_word') for f in row.kept)


def kinds_file():
    out = '// The kind of a node of each row.\n// %s\n' % GENERATED
    out += 'ghost use Rattle.json_value.specs.View.{view};\nghost use Rattle.js_syntax.specs.Table as table;\nghost use Rattle.json_text.specs.Answer.{Gives};\nghost use Rattle.json_table.specs.View.{row_view};\nghost use Rattle.json_read.specs.Kind.{kind_of};\n\n'
    out += 'use crate::owned::{ident, key, module_name, name, optional_module_name, optional_name, reg_exp_text, source, template_text, text, value};\n'
    out += 'use js_syntax::{ClassKind, FunctionKind, NodeKind, NodeType};\nuse json_table::{Keys, Row};\nuse json_value::Value;\nuse std::alloc::Global;\n'
    out += 'use json_scan::{flag_field, is_marked, place_of, %s};\nuse json_text::TreeError;\n' % ', '.join(WORD_FIELDS.values())
    for r in ROWS:
        if simple(r): continue
        out += '\n#[tactic(auto, using(json_scan::proofs::Steps::fails_bind))]\nfn %s(%snode: &Value<\'_>) -> Result<NodeKind, TreeError>\n    ensures { Gives (λ k. k) result (kind_of table.%s (view node.now)) }\n{\n    let node_type = NodeType::%s;\n' % (name_of(r), 'alloc: Global, ' if copies(r) else '', r.name, r.type)
        for f in r.kept: out += '    let %s = %s;\n' % (variable(f), read_of(r, f))
        out += '    Ok(%s)\n}\n' % made(r, [variable(f) for f in r.kept])
    out += '\n/// The kind of a node of this row.\npub fn node_kind(alloc: Global, row: Row, node: &Value<\'_>) -> Result<NodeKind, TreeError>\n    ensures { Gives (λ k. k) result (kind_of (row_view row) (view node.now)) }\n{\n    match row {\n'
    for r in ROWS:
        call = 'Ok(%s)' % made(r, ['is_marked(node, "%s")' % f.name for f in r.kept]) if simple(r) else '%s(%snode)' % (name_of(r), 'alloc, ' if copies(r) else '')
        out += '        Row::%s => %s,\n' % (bare(r.name), call)
    return out + '    }\n}\n'


FILES = {'json_read/src/kinds.rt': kinds_file}


def numbered(name, i): return name if i == 0 else '%s-%d' % (name, i + 1)


def answers(row):
    """What `search` leaves open: each fault ends the reading, and what all fields give is the kind."""
    def text():
        out = '-- %s\nuse Rattle.std.proofs.Common.{refl}\nuse Rattle.std.proofs.lemmas.Result.{err_from_is_err_and}\nuse Rattle.json_scan.proofs.Steps.{fails_bind}\nuse Rattle.json_read.proofs.kinds.%s.Goals as goal\n' % (GENERATED, name_of(row))
        steps = []
        for i, f in enumerate(row.kept):
            place = numbered('c.place_of', i)
            steps += ['← %s.ensures.fault' % place, '← %s.ensures.field' % place]
            goal = 'returns_in_err-%s'.replace('returns_in', 'returns-in') % variable(f)
            residual = 'c.from_residual' if i == 0 else 'c.from_residual-in_err-%s' % variable(f)
            out += '\npub %s : goal.%s\n%s c =\n    let p = err_from_is_err_and %s.result %s.ensures.1 in\n    rw (p.1, p.2, %s) (fails_bind _ _ _ c.in_err-%s.ensures)\n' % (goal, goal, goal, residual, residual, ', '.join(steps), variable(f))
            steps.append('c.in_ok-%s.ensures' % variable(f))
        return out + '\npub returns : goal.returns\nreturns c = rw (%s) refl\n' % ', '.join(steps)
    return text


def dispatch():
    out = '-- %s\nuse Rattle.std.proofs.Common.{refl}\nuse Rattle.json_read.proofs.kinds.node_kind.Goals as goal\n' % GENERATED
    marks = 0
    for r in ROWS:
        case, goal = 'in-' + bare(r.name), 'returns-in-' + bare(r.name)
        if not simple(r): steps, end = 'c.%s.is' % case, 'c.%s.ensures' % name_of(r)
        elif not r.kept: steps, end = 'c.%s.is' % case, 'refl'
        else:
            steps, end = '(c.%s.is, c.is_marked%s.ensures)' % (case, '-' + case if marks else ''), 'refl'
            marks += 1
        out += '\npub %s : goal.%s\n%s c = rw %s %s\n' % (goal, goal, goal, steps, end)
    return out


for r in ROWS:
    if not simple(r) and not any(f.head == 'a_mark' for f in r.kept): FILES['json_read/proofs/kinds/%s/Answers.antt' % name_of(r)] = answers(r)
FILES['json_read/proofs/kinds/node_kind/Answers.antt'] = dispatch

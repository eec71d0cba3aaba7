"""json_entries: what is written of a node, key by key in byte order."""
import re
from table import *
from run_table import bare


def entries(row):
    """The keys of a row in byte order, each with what it holds as code and as a term."""
    out, kept, child = [('type', 'Type(NodeType::%s)' % row.type, 'the_type type.%s' % row.type)], 0, 0
    for f in row.fields:
        if f.head == 'a_key':
            out.append((f.name, 'Key(%d, %d)' % (kept, child), 'key_at %d %d' % (kept, child)))
            kept, child = kept + 1, child + 1
        elif f.head == 'a_mark':
            out.append((f.name, 'Mark(%d)' % kept, 'mark_at %d' % kept))
            kept += 1
        elif f.is_kept():
            out.append((f.name, 'Scalar(%d)' % kept, 'scalar_at %d' % kept))
            kept += 1
        elif f.has_node():
            out.append((f.name, 'Child(%d)' % child, 'node_at %d' % child))
            child += 1
        elif f.head == 'never': out.append((f.name, 'No', 'no'))
        elif f.head == 'null_only': out.append((f.name, 'Nothing', 'nothing_there'))
        elif f.head in HINTS: out.append((f.name, 'Flag(Hint::%s)' % camel(f.head), 'flag %s' % f.head))
        elif f.head == 'unread': out.append((f.name,) + {'the_empty_object': ('Empty', 'empty'), 'the_flag': ('Yes', 'yes')}[f.rest[0]])
        elif f.head == 'constant': out.append((f.name, 'Word(%s)' % f.rest[0], 'as_word (codes %s)' % f.rest[0]))
        elif f.head == 'fixed_name': out.append((f.name, 'Name(%s)' % f.rest[0], 'as_name (codes %s)' % f.rest[0]))
        else: raise ValueError(f.head)
    return sorted(out, key=lambda e: e[0].encode())


WRITTEN = written()
ROWS_OF = {}
for r in WRITTEN: ROWS_OF.setdefault(r.kind, []).append(r)
VARIANTS = variants_of_kind()
NO_ROW = ['hole'] + LISTS
KIND_USE = 'use Rattle.js_syntax.specs.declared.node_kind.NodeKind.{NodeKind as Kind}\n'


def kind_names(text, extra=''):
    """The imports of the kinds that a text of definitions names."""
    used = [k for k in VARIANTS if re.search(r'(?<![\w.])%s(?![\w"])' % k, text)]
    return KIND_USE + 'use Rattle.js_syntax.specs.declared.node_kind.NodeKind.TheVariants.{%s}\n' % ', '.join('%s as %s' % (VARIANTS[k].name, k) for k in used)


def static(row): return re.sub(r'^AN?_', '', row.name.upper())


def names_for(row):
    """A pattern of the kind, with a name for each field, and those names."""
    v = VARIANTS[row.kind]
    names = [n for n, _ in v.fields]
    return v, names


def pattern(kind, names):
    """A Rust pattern: a name for each field, `_` for one that isn't looked at."""
    v = VARIANTS[kind]
    if not v.fields: return 'NodeKind::' + v.name
    if len(v.fields) == 1: return 'NodeKind::%s(%s)' % (v.name, names[0])
    if all(n == '_' for n in names): return 'NodeKind::%s { .. }' % v.name
    rest = any(n == '_' for n in names)
    return 'NodeKind::%s { %s }' % (v.name, ', '.join([f for (f, _), n in zip(v.fields, names) if n != '_'] + (['..'] if rest else [])))


def table():
    out = '// The entries of each row.\n// %s\nghost use Rattle.std.specs.Prelude.{◌≡◌, map};\nghost use Rattle.json_entries.specs.Entry.{entry_view};\nghost use Rattle.json_entries.specs.Entries.{entries_of};\n\n' % GENERATED
    out += 'use crate::entry::{Content, Entry};\nuse js_syntax::{ClassKind, FunctionKind, NodeKind, NodeType};\nuse json_table::Hint;\n\n'
    for r in WRITTEN:
        es = entries(r)
        out += 'static %s: [Entry; %d] = [%s];\n\n' % (static(r), len(es), ', '.join('Entry("%s", Content::%s)' % (n, c) for n, c, _ in es))
    arms = ''
    for kind, v in VARIANTS.items():
        if kind in NO_ROW: continue
        rows = ROWS_OF[kind]
        family = family_of(kind)
        if len(rows) == 1: arms += '        %s => &%s,\n' % (pattern(kind, ['_'] * len(v.fields)), static(rows[0]))
        elif family:
            arms += '        %s => match kind {\n%s        },\n' % (pattern(kind, ['kind'] + ['_'] * (len(v.fields) - 1)), ''.join('            %s::%s => &%s,\n' % (family, r.fixed[0], static(r)) for r in rows))
        else:
            arms += '        NodeKind::%s(source) => match source {\n%s        },\n' % (v.name, ''.join('            %s => &%s,\n' % ('Some(_)' if r.fixed == ['Some'] else 'None', static(r)) for r in rows))
    arms += '        %s => &[],\n' % ' | '.join('NodeKind::' + VARIANTS[k].name for k in NO_ROW)
    return out + "/// What is written of a node, key by key in byte order; nothing of a list and of a hole.\npub fn entries(kind: &NodeKind) -> &'static [Entry]\n    ensures { map entry_view result.now ≡ entries_of kind.now }\n{\n    match kind {\n%s    }\n}\n" % arms


SCALAR_CODE = {'a_flag': 'Flag(*%s)', 'a_mark': 'Mark(*%s)', 'a_value': 'Value(%s)', 'a_name': 'Name(%s)', 'maybe_name': 'NameOrNull(%s)', 'a_module_name': 'ModuleName(%s)',
               'maybe_module_name': 'ModuleNameOrNull(%s)', 'a_source': 'Source(%s)', 'a_template_text': 'TemplateText(%s)', 'a_reg_exp_text': 'RegExpText(%s)', 'a_text': 'Text(%s.as_str())', 'a_word': 'Text(%s.as_str())'}


def scalar_code(f, name):
    if f.head == 'a_key': return 'Scalar::%s(%s)' % ('Property' if f.rest[0] == 'member_key' else 'Key', name)
    return 'Scalar::' + SCALAR_CODE[f.head] % name


COUNT = {0: 'None', 1: 'One', 2: 'Two', 3: 'Three'}


def gathered(codes): return 'Scalars::%s%s' % (COUNT[len(codes)], '(%s)' % ', '.join(codes) if codes else '')


def scalars():
    out = '// The fields of a node that are no nodes.\n// %s\nghost use Rattle.std.specs.Prelude.{◌≡◌};\nghost use Rattle.js_syntax.specs.Facts.{scalars_of};\nghost use Rattle.json_entries.specs.Entry.{scalar_list};\n\n' % GENERATED
    out += 'use crate::scalar::{Scalar, Scalars};\nuse js_syntax::NodeKind;\n\n'
    out += '/// The fields of a node that are no nodes, in reading order.\npub fn scalars(kind: &NodeKind) -> Scalars<\'_>\n    ensures { scalar_list result ≡ scalars_of kind.now }\n{\n    match kind {\n'
    for kind, v in VARIANTS.items():
        if kind == 'export_named_declaration':
            out += '        NodeKind::%s(source) => match source {\n            Some(source) => Scalars::One(Scalar::Source(source)),\n            None => Scalars::None,\n        },\n' % v.name
            continue
        if kind in NO_ROW: fields, names = [], []
        else:
            row = ROWS_OF[kind][0]
            fields = row.kept
            names = [n for n, _ in v.fields][len(v.fields) - len(fields):]
        if not fields: continue
        shown = ['_'] * (len(v.fields) - len(names)) + names
        out += '        %s => %s,\n' % (pattern(kind, shown), gathered([scalar_code(f, n) for f, n in zip(fields, names)]))
    return out + '        _ => Scalars::None,\n    }\n}\n'


def entries_spec():
    body = '-- what is written of a node, by its keys in byte order\nabbrev pub entries_of : Kind → List Entry\n'
    for r in WRITTEN:
        body += 'entries_of %s = %s[]\n' % (r.pattern(), ''.join('entry (codes "%s") %s ∷ ' % (n, '(%s)' % t if ' ' in t else t) for n, _, t in entries(r)))
    body += ''.join('entries_of %s = []\n' % k for k in NO_ROW)
    head = '-- What is written of each kind.\n-- %s\nuse Rattle.std.specs.Prelude.{List, [], ◌∷◌, Some, None, codes}\n' % GENERATED
    head += 'use Rattle.js_syntax.specs.Field.{is_computed, is_expression, is_shorthand}\n' + kind_names(re.sub(r'"\w+"', '', body))
    head += 'use Rattle.js_syntax.specs.declared.kind.FunctionKind.TheVariants as function_kind\nuse Rattle.js_syntax.specs.declared.kind.ClassKind.TheVariants as class_kind\nuse Rattle.js_syntax.specs.declared.node_type.NodeType.TheVariants as type\n'
    return head + 'use Rattle.json_entries.specs.Entry.{Entry, entry, the_type, scalar_at, mark_at, node_at, key_at, flag, no, yes, nothing_there, empty, as_word, as_name}\n\n' + body


def ordered():
    goal = lambda k: 'row_data %s below nodes (row_of %s) ≡ by_entries %s below nodes (row_of %s)' % (k, k, k, k)
    split = [
        ('function', '(how : FunctionKind) (pure : Bool)', 'how pure', ['function_kind.%s %s' % (m, b) for m in ('Declaration', 'Expression', 'Arrow') for b in ('true', 'false')]),
        ('class', '(how : ClassKind)', 'how', ['class_kind.Declaration', 'class_kind.Expression']),
        ('export_named_declaration', '(source : Option (List ℕ))', 'source', ['None', '(Some source)']),
        ('call_expression', '(optional pure : Bool)', 'optional pure', ['optional true', 'optional false']),
        ('new_expression', '(pure : Bool)', 'pure', ['true', 'false']),
    ]
    body = ''
    for kind, ts, args, cases in split:
        body += 'ordered_%s : %s (below : Forest) (nodes : List Data) → %s\n' % (kind, ts, goal('(%s %s)' % (kind, args)))
        body += ''.join('ordered_%s %s below nodes = refl\n' % (kind, c) for c in cases) + '\n'
    body += '-- by keys in byte order the same is written as by the fields in reading order\npub ordered : (k : Kind) (below : Forest) (nodes : List Data) → %s\n' % goal('k')
    body += ''.join('ordered (%s %s) below nodes = ordered_%s %s below nodes\n' % (kind, args, kind, args) for kind, _, args, _ in split)
    done = {k for k, _, _, _ in split}
    for r in WRITTEN:
        if r.kind not in done: body += 'ordered %s below nodes = refl\n' % r.pattern()
    body += ''.join('ordered %s below nodes = refl\n' % k for k in NO_ROW)
    head = '-- The entries of each kind are what its row writes.\n-- %s\nuse Rattle.std.proofs.Common.{◌≡◌, ℕ, List, Bool, true, false, Option, Some, None, refl}\n' % GENERATED
    head += 'use Rattle.serde_json.specs.Data.{Data}\n' + kind_names(body)
    head += 'use Rattle.js_syntax.specs.Node.{Forest}\nuse Rattle.js_syntax.specs.Facts.{row_of}\n'
    head += 'use Rattle.js_syntax.specs.declared.kind.FunctionKind.{FunctionKind}\nuse Rattle.js_syntax.specs.declared.kind.FunctionKind.TheVariants as function_kind\nuse Rattle.js_syntax.specs.declared.kind.ClassKind.{ClassKind}\nuse Rattle.js_syntax.specs.declared.kind.ClassKind.TheVariants as class_kind\n'
    return head + 'use Rattle.json_text.specs.Text.{row_data}\nuse Rattle.json_entries.specs.Members.{by_entries}\n\n' + body


FILES = {
    'json_entries/src/table.rt': table,
    'json_entries/src/kept.rt': scalars,
    'json_entries/specs/Entries.antt': entries_spec,
    'json_entries/proofs/Ordered.antt': ordered,
}

"""json_table: the table of node types as code may look things up in it."""
from table import *

TABLE = 'Rattle.json_table.specs.'
HEADER = '// %s\n// ' + GENERATED + '\n'


def bare(name):
    """A row's or class's name without its article."""
    return camel(re.sub(r'^(an?)_', '', name))


WANTED = [(bare(c), c, what, base, rows.split()) for c, what, base, rows in CLASSES]
CLASS_OF = {c: w for w, c, _, _, _ in WANTED}
KEPT_NAMES = {k: camel(re.sub(r'^a_', '', k)) for k in KEPT}
SORTS = {'child': 'Child', 'maybe': 'Maybe', 'a_body': 'Body'}
LIST_SORTS = {'each': 'Each', 'each_or_hole': 'EachOrHole'}


def wanted():
    out = HEADER % 'What may be wanted at a place.' + '\n/// What may be wanted at a place.\n#[derive(Clone, Copy)]\npub enum Wanted {\n'
    for w, c, what, _, _ in WANTED: out += '    /// %s\n    %s,\n' % (what[0].upper() + what[1:] + '.', w)
    return out + '}\n'


def rows():
    out = HEADER % 'The rows of the table.'
    out += 'ghost use Rattle.std.specs.Prelude.{◌≡◌};\nghost use Rattle.js_syntax.specs.Table as table;\nghost use %sView.{row_view};\n\nuse js_syntax::NodeType;\n' % TABLE
    out += '\n/// A way in which a type of ESTree stands in a tree.\n#[derive(Clone, Copy)]\npub enum Row {\n'
    out += ''.join('    %s,\n' % bare(r.name) for r in ROWS) + '}\n\nimpl Row {\n'
    out += "    /// ESTree's type of the row.\n    pub fn node_type(self) -> NodeType\n        ensures { result ≡ table.type_of (row_view self) }\n    {\n        NODE_TYPES[self as usize]\n    }\n}\n"
    return out + table_of('NODE_TYPES', 'NodeType', ['NodeType::' + r.type for r in ROWS], 'The type of each row, in the order of the rows.')


def table_of(name, type, entries, doc):
    """A table with an entry for each of an enum's variants. It is looked up in one step, where a match would be proved arm by arm."""
    return '\n/// %s\nstatic %s: [%s; %d] = [\n%s];\n' % (doc, name, type, len(entries), ''.join('    %s,\n' % e for e in entries))


def fields_file():
    out = HEADER % 'What a field of a node holds.' + 'ghost use Rattle.std.specs.Prelude.{◌≡◌};\nghost use %sView.{list_view};\n\nuse crate::wanted::Wanted;\nuse js_syntax::NodeKind;\n\n' % TABLE
    def enum(doc, name, vs): return '/// %s\n#[derive(Clone, Copy)]\npub enum %s {\n%s}\n\n' % (doc, name, ''.join('    %s,\n' % v for v in vs))
    out += enum('The lists of words.', 'Words', [e + 's' for _, e, _, _ in WORDS])
    out += enum("What the node's kind keeps of a field that is no node.", 'Kept', list(KEPT_NAMES.values()) + ['Word(Words)'])
    out += enum("A flag that the node's kind and what lies below it decide.", 'Hint', [camel(h) for h in HINTS])
    out += enum('A field of which nothing is read.', 'Unread', ['EmptyObject', 'True'])
    out += enum('What a field may say that the kind keeps nothing of.', 'Check', ["Never", "Constant(&'static str)", "FixedName(&'static str)", 'NullOnly', 'Hint(Hint)', 'Unread(Unread)'])
    out += enum('What may be the key of a property, of a member of a class, of a member expression.', 'Keys', ['PropertyKey', 'ClassKey', 'MemberKey'])
    out += enum('The lists of nodes.', 'List', [camel(l) for l in LISTS])
    out += enum('What a field holds: something that is no node; a key; a node that must or may be there; the nodes of\n/// a list, of one with holes, of a body behind its directives.', 'Sort', ['Keeps(Kept)', 'Checks(Check)', 'Key(Keys)', 'Child(Wanted)', 'Maybe(Wanted)', 'Each(List, Wanted)', 'EachOrHole(List, Wanted)', 'Body(Wanted)'])
    out += "/// A field: its name, and what it holds.\n#[derive(Clone, Copy)]\npub struct Field {\n    pub name: &'static str,\n    pub sort: Sort,\n}\n"
    out += '\nimpl List {\n    /// What the list itself is in a tree.\n    pub fn node_kind(self) -> NodeKind\n        ensures { result ≡ list_view self }\n    {\n        match self {\n'
    return out + ''.join('            List::%s => NodeKind::%s,\n' % (camel(l), camel(l)) for l in LISTS) + '        }\n    }\n}\n'


def sort_code(f):
    if f.head in HINTS: return 'Sort::Checks(Check::Hint(Hint::%s))' % camel(f.head)
    if f.head == 'unread': return 'Sort::Checks(Check::Unread(Unread::%s))' % ('True' if len(f.rest) > 1 else 'EmptyObject')
    if f.head in ('constant', 'fixed_name'): return 'Sort::Checks(Check::%s(%s))' % (camel(f.head), f.rest[0])
    if f.head in CHECKS: return 'Sort::Checks(Check::%s)' % camel(f.head)
    if f.head == 'a_word': return 'Sort::Keeps(Kept::Word(Words::%s))' % (ENUM[f.rest[0]] + 's')
    if f.head in KEPT: return 'Sort::Keeps(Kept::%s)' % KEPT_NAMES[f.head]
    if f.head == 'a_key': return 'Sort::Key(Keys::%s)' % camel(f.rest[0])
    if f.head in SORTS: return 'Sort::%s(Wanted::%s)' % (SORTS[f.head], CLASS_OF[f.rest[0]])
    return 'Sort::%s(List::%s, Wanted::%s)' % (LIST_SORTS[f.head], camel(f.rest[0]), CLASS_OF[f.rest[1]])


def table_file():
    out = HEADER % 'The fields of each row.'
    out += 'ghost use Rattle.std.specs.Prelude.{◌≡◌, map};\nghost use Rattle.js_syntax.specs.Table.{fields_of};\nghost use %sView.{row_view, field_view};\n\nuse crate::field::{Check, Field, Hint, Kept, Keys, List, Sort, Unread, Words};\nuse crate::row::Row;\nuse crate::wanted::Wanted;\n' % TABLE
    table_name = lambda r: re.sub(r'^AN?_', '', r.name.upper())
    lists = {}
    for r in ROWS:
        key = ', '.join('Field { name: "%s", sort: %s }' % (f.name, sort_code(f)) for f in r.fields)
        lists.setdefault(key, []).append(r)
    for key, rs in lists.items():
        out += '\nstatic %s: [Field; %d] = [%s];\n' % (table_name(rs[0]), len(rs[0].fields), key)
    out += '\nimpl Row {\n    /// The fields, in reading order.\n    pub fn fields(self) -> &\'static [Field]\n        ensures { map field_view result.now ≡ fields_of (row_view self) }\n    {\n        match self {\n'
    for rs in lists.values():
        out += '            %s => &%s,\n' % (' | '.join('Row::' + bare(r.name) for r in rs), table_name(rs[0]))
    return out + '        }\n    }\n}\n'


def rows_at(c):
    """The rows that stand where a class is wanted: its own, and behind them those of the class that it goes on with."""
    _, _, _, base, rs = next(w for w in WANTED if w[1] == c)
    return rs + (rows_at(base) if base else [])


def stand_file():
    out = HEADER % 'Which row stands where.'
    out += 'ghost use Rattle.std.specs.Prelude.{◌≡◌};\nghost use Rattle.std.specs.Option.{option_map};\nghost use Rattle.js_syntax.specs.Table as table;\nghost use %sStanding.{row_among, rows_standing};\nghost use %sView.{row_view, class_view};\n\nuse crate::row::Row;\nuse crate::wanted::Wanted;\nuse js_syntax::NodeType;\n' % (TABLE, TABLE)
    for w, c, what, base, rs in WANTED:
        out += '\n// %s\nconst %s: &[Row] = &[%s];\n' % (what[0].upper() + what[1:] + '.', c.upper(), ', '.join('Row::' + bare(r) for r in rows_at(c)))
    out += table_of('STANDING', '&[Row]', [c.upper() for _, c, _, _, _ in WANTED], 'The rows that stand where each class is wanted, in the order of the classes.')
    return out + '''
/// The row of a type where a node of this class is wanted, if it may stand there.
pub fn row_of(wanted: Wanted, kind: NodeType) -> Option<Row>
    ensures { option_map row_view result ≡ table.stands (class_view wanted) kind }
{
    among(standing(wanted), kind)
}

/// The rows that stand where a node of this class is wanted.
fn standing(wanted: Wanted) -> &'static [Row]
    ensures { result.now ≡ rows_standing wanted }
{
    STANDING[wanted as usize]
}

/// The first of these rows that is of this type.
fn among(rows: &[Row], kind: NodeType) -> Option<Row>
    ensures { result ≡ row_among kind rows.now }
{
    for row in rows {
        if row.node_type() == kind {
            return Some(*row);
        }
    }
    None
}
'''


def standing_spec():
    D = TABLE + 'declared.'
    out = '-- The rows that stand where a class is wanted, and the search for the one of a type among them.\n-- ' + GENERATED + '''
use Rattle.std.specs.Prelude.{List, [], ◌∷◌, Option, Some, None, if◌then◌else◌}
use Rattle.js_syntax.specs.declared.node_type.NodeType.{NodeType}
use Rattle.js_syntax.specs.contracts.node_type.NodeTypePartialEq.TheImpl as type_eq
use Rattle.js_syntax.specs.Table.{type_of}
'''
    out += 'use %swanted.Wanted as code_wanted\nuse %swanted.Wanted.TheVariants as in_wanted\nuse %srow.Row as code_row\nuse %srow.Row.TheVariants as in_row\nuse %sView.{row_view}\n' % (D, D, D, D, TABLE)
    out += '\n-- the rows of a class, in the order in which they are looked through\nabbrev pub rows_standing : code_wanted.Wanted → List code_row.Row\n'
    out += ''.join('rows_standing in_wanted.%s = %s[]\n' % (w, ''.join('in_row.%s ∷ ' % bare(r) for r in rows_at(c))) for w, c, _, _, _ in WANTED)
    return out + '''
-- the first of these rows that is of this type
abbrev pub row_among : NodeType → List code_row.Row → Option code_row.Row
row_among t [] = None
row_among t (r ∷ rs) = if type_eq.ghosts.eq (type_of (row_view r)) t then Some r else row_among t rs
'''


def search_proof():
    out = '-- The search for the row of a type, and what it finds where each class is wanted.\n-- ' + GENERATED + '''
use Rattle.std.proofs.Common.{◌≡◌, ℕ, ◌+◌, ◌<◌, List, drop, length, Bool, true, false, Some, slice_index_or, if◌then◌else◌, refl, ap, ◌∙◌, sym, drop-cons, add-one}
use Rattle.std.specs.Option.{option_map}
use Rattle.js_syntax.specs.declared.node_type.NodeType.{NodeType}
use Rattle.js_syntax.specs.declared.node_type.NodeType.TheVariants as type
use Rattle.js_syntax.specs.contracts.node_type.NodeTypePartialEq.TheImpl as type_eq
use Rattle.js_syntax.specs.Table.{type_of, stands}
use Rattle.json_table.specs.declared.wanted.Wanted.{Wanted}
use Rattle.json_table.specs.declared.wanted.Wanted.TheVariants as in_wanted
use Rattle.json_table.specs.declared.row.Row.{Row}
use Rattle.json_table.specs.View.{row_view, class_view}
use Rattle.json_table.specs.Standing.{row_among, rows_standing}

first : (b : Bool) {A : Type 0} (x r : A) → b ≡ true → (if b then x else r) ≡ x
first true x r e = refl
first false x r e = cc

second : (b : Bool) {A : Type 0} (x r : A) → b ≡ false → (if b then x else r) ≡ r
second true x r e = cc
second false x r e = refl

-- where this row is of the type, it is the first of those that are left
pub row_found : (t : NodeType) (rs : List Row) (i : ℕ) (d : Row) → i < length rs → type_eq.ghosts.eq (type_of (row_view (slice_index_or rs i d))) t ≡ true → row_among t (drop i rs) ≡ Some (slice_index_or rs i d)
row_found t rs i d h e = ap (row_among t) (drop-cons rs i d h) ∙ first _ _ _ e

-- where it is of another, the row is among the others
pub row_passed : (t : NodeType) (rs : List Row) (i : ℕ) (d : Row) → i < length rs → type_eq.ghosts.eq (type_of (row_view (slice_index_or rs i d))) t ≡ false → row_among t (drop i rs) ≡ row_among t (drop (i + 1) rs)
row_passed t rs i d h e = ap (row_among t) (drop-cons rs i d h) ∙ second _ _ _ e ∙ ap (λ k. row_among t (drop k rs)) (sym (add-one i))

-- Each type in each class, by computing: the first clause of a class has the others of it taken by cases.
pub standing_is : (w : Wanted) (t : NodeType) → option_map row_view (row_among t (rows_standing w)) ≡ stands (class_view w) t
'''
    return out + ''.join('standing_is in_wanted.%s type.%s = refl\n' % (w, types()[0]) for w, _, _, _, _ in WANTED) + 'standing_is _ _ = refl\n'


ROW_OF = HEADER.replace('//', '--') % 'What stands where, by the search of its rows.' + '''use Rattle.std.proofs.Common.{◌∙◌, ap}
use Rattle.std.specs.Option.{option_map}
use Rattle.json_table.specs.View.{row_view}
use Rattle.json_table.specs.Standing.{row_among}
use Rattle.json_table.proofs.Search.{standing_is}
use Rattle.json_table.proofs.stand.row_of.Goals as goal

pub returns : goal.returns
returns c =
    ap (option_map row_view) (c.among.ensures ∙ ap (row_among c.args.kind) c.standing.ensures)
    ∙ standing_is c.args.wanted c.args.kind
'''


def view_spec():
    D = TABLE + 'declared.'
    out = '-- What the table of the code is in the definitions.\n-- ' + GENERATED + '\n'
    out += 'use Rattle.std.specs.Prelude.{true}\n'
    out += 'use Rattle.js_syntax.specs.Scalar.{the_flag, the_empty_object}\nuse Rattle.js_syntax.specs.declared.node_kind.NodeKind.{NodeKind as Kind}\nuse Rattle.js_syntax.specs.declared.node_kind.NodeKind.TheVariants as kind\n'
    out += 'use Rattle.js_syntax.specs.Class.{Class}\nuse Rattle.js_syntax.specs.Class as class\nuse Rattle.js_syntax.specs.Word.{Words}\nuse Rattle.js_syntax.specs.Word as words\n'
    out += 'use Rattle.js_syntax.specs.Field.{Kept, Hint, Check, Keys, Sort, Field}\nuse Rattle.js_syntax.specs.Field as syntax\nuse Rattle.js_syntax.specs.Table.{Row}\nuse Rattle.js_syntax.specs.Table as table\n'
    for f, n in [('wanted', 'Wanted'), ('row', 'Row')] + [('field', n) for n in ('Words', 'Kept', 'Hint', 'Unread', 'Check', 'Keys', 'List', 'Sort')]:
        if n != 'Unread': out += 'use %s%s.%s as code_%s\n' % (D, f, n, snake(n))
        out += 'use %s%s.%s.TheVariants as in_%s\n' % (D, f, n, snake(n))
    out += 'use %sfield.Field as code_field\n' % D
    def view(name, n, target, lines): return '\nabbrev pub %s : code_%s.%s → %s\n' % (name, snake(n), n, target) + ''.join('%s %s = %s\n' % (name, a, b) for a, b in lines)
    out += view('class_view', 'Wanted', 'Class', [('in_wanted.' + w, 'class.' + c) for w, c, _, _, _ in WANTED])
    out += view('row_view', 'Row', 'Row', [('in_row.' + bare(r.name), 'table.' + r.name) for r in ROWS])
    out += view('words_view', 'Words', 'Words', [('in_words.%ss' % e, 'words.' + w) for w, e, _, _ in WORDS])
    out += view('kept_view', 'Kept', 'Kept', [('in_kept.' + v, 'syntax.' + k) for k, v in KEPT_NAMES.items()] + [('(in_kept.Word w)', 'syntax.a_word (words_view w)')])
    out += view('hint_view', 'Hint', 'Hint', [('in_hint.' + camel(h), 'syntax.' + h) for h in HINTS])
    out += view('check_view', 'Check', 'Check', [('in_check.Never', 'syntax.never'), ('(in_check.Constant s)', 'syntax.constant s.now'), ('(in_check.FixedName s)', 'syntax.fixed_name s.now'), ('in_check.NullOnly', 'syntax.null_only'),
        ('(in_check.Hint h)', 'syntax.hint (hint_view h)'), ('(in_check.Unread in_unread.EmptyObject)', 'syntax.unread the_empty_object'), ('(in_check.Unread in_unread.True)', 'syntax.unread (the_flag true)')])
    out += view('keys_view', 'Keys', 'Keys', [('in_keys.' + camel(k), 'syntax.' + k) for k in ('property_key', 'class_key', 'member_key')])
    out += view('list_view', 'List', 'Kind', [('in_list.' + camel(l), 'kind.' + camel(l)) for l in LISTS])
    out += view('sort_view', 'Sort', 'Sort', [('(in_sort.Keeps k)', 'syntax.keeps (kept_view k)'), ('(in_sort.Checks c)', 'syntax.checks (check_view c)'), ('(in_sort.Key k)', 'syntax.a_key (keys_view k)'),
        ('(in_sort.Child c)', 'syntax.child (class_view c)'), ('(in_sort.Maybe c)', 'syntax.maybe (class_view c)'), ('(in_sort.Each l c)', 'syntax.each (list_view l) (class_view c)'),
        ('(in_sort.EachOrHole l c)', 'syntax.each_or_hole (list_view l) (class_view c)'), ('(in_sort.Body c)', 'syntax.a_body (class_view c)')])
    return out + '\nabbrev pub field_view : code_field.Field → Field\nfield_view f = syntax.field f.name.now (sort_view f.sort)\n'


LIB = '''//! The table of node types, as code looks things up in it.
//!
//! `js_syntax` states the table once, as definitions. Here are its classes, rows and fields as plain
//! data: which row a type of ESTree is where a class of node is wanted, ESTree's type of a row, and
//! the fields of a row in reading order. The contracts say that each answer is the table's own.
#![tactic(auto)]

mod field;
mod row;
mod stand;
mod table;
mod wanted;

pub use field::{Check, Field, Hint, Kept, Keys, List, Sort, Unread, Words};
pub use row::Row;
pub use stand::row_of;
pub use wanted::Wanted;
'''

FILES = {
    'json_table/src/lib.rt': lambda: LIB,
    'json_table/src/wanted.rt': wanted,
    'json_table/src/row.rt': rows,
    'json_table/src/field.rt': fields_file,
    'json_table/src/table.rt': table_file,
    'json_table/src/stand.rt': stand_file,
    'json_table/specs/Lib.antt': lambda: 'pub mod Standing\npub mod View\n',
    'json_table/specs/Standing.antt': standing_spec,
    'json_table/proofs/Lib.antt': lambda: 'mod Search\n',
    'json_table/proofs/Search.antt': search_proof,
    'json_table/proofs/stand/row_of/Answers.antt': lambda: ROW_OF,
    'json_table/specs/View.antt': view_spec,
}

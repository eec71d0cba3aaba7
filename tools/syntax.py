"""js_syntax: the names of types, the words, the kinds, the classes and the table."""
from table import *

SYNTAX = 'Rattle.js_syntax.specs.'
DECLARED = SYNTAX + 'declared.'
PRELUDE = 'use Rattle.std.specs.Prelude.{%s}\n'
HEAD = '-- %s\n-- ' + GENERATED + '\n'


def short(enum): return snake(enum).removesuffix('_operator')


def enum_uses(enums, qualified=()):
    out = ''
    for e, f in enums:
        out += 'use %s%s.%s.{%s}\n' % (DECLARED, f, e, e)
        if e in qualified: out += 'use %s%s.%s.TheVariants as %s\n' % (DECLARED, f, e, short(e))
    return out


def names():
    out = HEAD % "The types of nodes, by ESTree's names." + PRELUDE % 'ℕ, List, [], ◌∷◌, Option, Some, None, codes, if◌then◌else◌'
    out += 'use Rattle.std.specs.Str.{bytes_eq}\n' + enum_uses([('NodeType', 'node_type')])
    out += 'use %snode_type.NodeType.TheVariants as type\n' % DECLARED
    out += '\nabbrev pub type_name : NodeType → List ℕ\n'
    out += ''.join('type_name type.%s = codes "%s"\n' % (t, t) for t in types())
    out += '\n-- in the order in which a name is sought\nabbrev pub all_types : List NodeType\nall_types = %s ∷ []\n' % ' ∷ '.join('type.' + t for t in sought_types())
    return out + '''
abbrev pub type_among : List ℕ → List NodeType → Option NodeType
type_among s [] = None
type_among s (t ∷ ts) = if bytes_eq s (type_name t) then Some t else type_among s ts

-- the type of this name, where the table has it
unfoldable pub type_named : List ℕ → Option NodeType
type_named s = type_among s all_types
'''


def words():
    out = HEAD % 'The words of fields that hold one of a list.' + PRELUDE % 'ℕ, List, [], ◌∷◌, Option, Some, None, codes, if◌then◌else◌'
    out += 'use Rattle.std.specs.Str.{bytes_eq}\n' + enum_uses([(e, f) for _, e, f, _ in WORDS], [e for _, e, _, _ in WORDS])
    for _, e, _, vs in WORDS:
        out += '\nabbrev pub %s_name : %s → List ℕ\n' % (snake(e), e)
        out += ''.join('%s_name %s.%s = codes "%s"\n' % (snake(e), short(e), v, w) for v, w in variants(vs))
    out += '\npub data Words : Type 0 where\n  %s : Words\n' % ' '.join(w for w, _, _, _ in WORDS)
    out += '\nabbrev pub Word : Words → Type 0\n' + ''.join('Word %s = %s\n' % (w, e) for w, e, _, _ in WORDS)
    out += '\nabbrev pub word_name : (w : Words) → Word w → List ℕ\n' + ''.join('word_name %s = %s_name\n' % (w, snake(e)) for w, e, _, _ in WORDS)
    out += '\nabbrev pub all_words : (w : Words) → List (Word w)\n'
    out += ''.join('all_words %s = %s ∷ []\n' % (w, ' ∷ '.join(short(e) + '.' + v for v, _ in variants(vs))) for w, e, _, vs in WORDS)
    return out + '''
abbrev pub word_among : (w : Words) → List ℕ → List (Word w) → Option (Word w)
word_among w s [] = None
word_among w s (x ∷ xs) = if bytes_eq s (word_name w x) then Some x else word_among w s xs

-- the word of this text, where the list has it
unfoldable pub word_named : (w : Words) → List ℕ → Option (Word w)
word_named w s = word_among w s (all_words w)
'''


def kind_enums(): return [(e, f) for _, e, f, _ in WORDS] + [(e, f) for e, f, _ in FAMILIES]


def kind():
    """The names that definitions use for the kinds, which are Rust's."""
    out = HEAD % "A node's type, with those of its fields that are no nodes: Rust's `NodeKind`, under the names of the table."
    out += 'pub use %snode_kind.NodeKind.{NodeKind as Kind}\n' % DECLARED
    return out + 'pub use %snode_kind.NodeKind.TheVariants.{%s}\n' % (DECLARED, ', '.join('%s as %s' % (v.name, k) for k, v in variants_of_kind().items()))


def below_doc(kind):
    below = kinds().get(kind, ([], []))[1]
    return '; below it: %s' % ', '.join(below) if below else ''


def node_kind():
    out = "// What a node is: ESTree's type, with those of its fields that are no nodes. %s\n" % GENERATED
    out += 'use crate::kind::{ClassKind, FunctionKind, MethodKind, PropertyKind, VariableKind};\n'
    out += 'use crate::operator::{\n    AssignmentOperator, BinaryOperator, LogicalOperator, UnaryOperator, UpdateOperator,\n};\nuse crate::scalar::SourceType;\nuse crate::text::{Ident, Text};\nuse crate::value::{Key, LiteralValue, ModuleName, RegExpText, TemplateText};\n'
    out += "\n/// A node's type, with those of its fields that are no nodes. Behind each stands what lies below it, in\n/// reading order; `?` marks what may be absent.\npub enum NodeKind {\n"
    types_of = {}
    for r in ROWS: types_of.setdefault(r.kind, r.type)
    for k, v in variants_of_kind().items():
        if k in types_of: out += '    /// ESTree `%s`%s.\n' % (types_of[k], below_doc(k))
        elif k == 'hole': out += '    /// A place of an array that holds nothing.\n'
        else: out += '    /// A list of nodes: a field of the node above it.\n'
        out += '    %s,\n' % v.declared()
    out += '}\n\n// By hand, and so a call in each function that lets a kind go, where a derived one is all of its arms.\nimpl Drop for NodeKind {\n    fn drop(self) {\n        match self {\n'
    return out + '            %s => {}\n        }\n    }\n}\n' % ' | '.join(v.ignored() for v in variants_of_kind().values())


def classes():
    out = '-- What may be wanted at a place.\n-- %s\n\npub data Class : Type 0 where\n' % GENERATED
    return out + ''.join('  -- %s\n  %s : Class\n' % (what, c) for c, what, _, _ in CLASSES)


def codes_of(field): return 'field (codes "%s") %s' % (field.name, field.antt())


def stands():
    out = "\n-- the row of a type where a node of this class is wanted, if it may stand there\n"
    shared = [c for c, _, _, _ in CLASSES if any(b == c for _, _, b, _ in CLASSES)]
    own = {c: rows.split() for c, _, _, rows in CLASSES}
    base = {c: b for c, _, b, _ in CLASSES}
    done = []
    def lines(head, c):
        text = ''.join('%s type.%s = Some %s\n' % (head, ROW[r].type, r) for r in own[c])
        return text + ('%s t = stands_%s t\n' % (head, base[c]) if base[c] else '')
    while len(done) < len(shared):
        for c in shared:
            if c in done or (base[c] and base[c] not in done): continue
            done.append(c)
            out += 'abbrev pub stands_%s : NodeType → Option Row\n' % c + lines('stands_%s' % c, c) + ('' if base[c] else 'stands_%s _ = None\n' % c) + '\n'
    out += 'abbrev pub stands : Class → NodeType → Option Row\n'
    for c, _, _, _ in CLASSES:
        out += 'stands %s t = stands_%s t\n' % (c, c) if c in shared else lines('stands %s' % c, c)
    return out + 'stands _ _ = None\n'


def the_table():
    out = HEAD % 'The table of node types: a row for each way in which a type of ESTree stands in a tree.'
    out += PRELUDE % 'List, [], ◌∷◌, true, Option, Some, None, codes'
    out += 'use %sScalar.{the_flag, the_empty_object}\nuse %sKind.{%s}\n' % (SYNTAX, SYNTAX, ', '.join(list(kinds()) + LISTS))
    out += 'use %sClass.{Class, %s}\nuse %sWord.{%s}\n' % (SYNTAX, ', '.join(c for c, _, _, _ in CLASSES), SYNTAX, ', '.join(w for w, _, _, _ in WORDS))
    out += 'use %sField.{Field, field, Makes, keeps, checks, a_key, child, maybe, each, each_or_hole, a_body, a_word, %s, %s, hint, property_key, class_key, member_key}\n' % (SYNTAX, ', '.join(KEPT), ', '.join(CHECKS))
    out += ''.join('use %skind.%s.TheVariants as %s_kind\n' % (DECLARED, e, snake(e).removesuffix('_kind')) for e, _, _ in FAMILIES)
    out += 'use %snode_type.NodeType.{NodeType}\nuse %snode_type.NodeType.TheVariants as type\n' % (DECLARED, DECLARED)
    out += '\npub data Row : Type 0 where\n' + ''.join('  %s : Row\n' % r.name for r in ROWS)
    out += '\n-- the fields, in reading order\nabbrev pub fields_of : Row → List Field\n'
    out += ''.join('fields_of %s = %s[]\n' % (r.name, ''.join(codes_of(f) + ' ∷ ' for f in r.fields)) for r in ROWS)
    out += '\n-- the kind of a node, from what its fields give\nabbrev pub kind_at : (row : Row) → Makes (fields_of row)\n'
    for r in ROWS:
        made = r.pattern()
        out += 'kind_at %s = %s%s\n' % (r.name, 'λ source. ' if r.fixed == ['Some'] else '', made[1:-1] if r.fixed == ['Some'] else ' '.join([r.kind] + [fixed(r.kind, x) for x in r.fixed]))
    out += "\n-- ESTree's type of a row\nabbrev pub type_of : Row → NodeType\n"
    return out + ''.join('type_of %s = type.%s\n' % (r.name, r.type) for r in ROWS) + stands()


def facts():
    """What a kind says of its node."""
    out = HEAD % 'What a kind says of its node.' + PRELUDE % 'ℕ, List, [], ◌∷◌, Bool, true, false, not, Option, Some, None'
    scalars = sorted({f.scalar().split()[0][1:] for r in ROWS for f in r.kept})
    out += 'use %sScalar.{Scalar, %s}\nuse %sKind.{Kind, %s, hole, %s}\n' % (SYNTAX, ', '.join(scalars), SYNTAX, ', '.join(kinds()), ', '.join(LISTS))
    out += 'use %sWord.{word_name, %s}\n' % (SYNTAX, ', '.join(w for w, _, _, _ in WORDS))
    out += 'use %sCore.{value_weight, template_weight, is_core_unary, is_core_binary, is_core_assignment, is_plain_property}\n' % SYNTAX
    out += 'use %sTable.{Row, %s}\n' % (SYNTAX, ', '.join(dict.fromkeys(r.name for r in written())))
    out += ''.join('use %skind.%s.TheVariants as %s_kind\n' % (DECLARED, e, snake(e).removesuffix('_kind')) for e, _, _ in FAMILIES)
    rows = written()
    others = ['hole'] + LISTS
    out += '\n-- the row that the node is written by, unless it is a list or a hole\nabbrev pub row_of : Kind → Option Row\n'
    out += ''.join('row_of %s = Some %s\n' % (r.pattern(), r.name) for r in rows) + ''.join('row_of %s = None\n' % k for k in others)
    out += '\n-- its fields that are no nodes, in reading order\nabbrev pub scalars_of : Kind → List Scalar\n'
    out += ''.join('scalars_of %s = %s[]\n' % (r.pattern(), ''.join(f.scalar()[1:-1] + ' ∷ ' for f in r.kept)) for r in rows)
    out += ''.join('scalars_of %s = []\n' % k for k in others)
    out += '\n-- How much a node weighs. A pass that changes a tree makes it lighter, so passes end.\nabbrev pub weight : Kind → ℕ\n'
    out += ''.join('weight %s = %s\n' % (r.pattern(), r.weight) for r in rows) + 'weight hole = 1\n' + ''.join('weight %s = 0\n' % k for k in LISTS)
    out += '\n-- whether runs are defined for the node itself\nabbrev pub is_core : Kind → Bool\n'
    core = {'yes': 'true', 'no': 'false'}
    out += ''.join('is_core %s = %s\n' % (r.pattern(), core.get(r.core, r.core)) for r in rows)
    return out + 'is_core hole = false\n' + ''.join('is_core %s = true\n' % k for k in LISTS)


def rust_enum(name, vs, doc='', debug=', Debug'):
    return '%s#[derive(Clone, Copy%s, PartialEq, Eq)]\npub enum %s {\n%s}\n' % (doc, debug, name, ''.join('    %s,\n' % v for v in vs))


def node_type():
    out = '// The types of nodes. %s\n' % GENERATED
    out += 'ghost use Rattle.std.specs.Prelude.{◌≡◌};\nghost use Rattle.js_syntax.specs.Name.{type_among, type_name, type_named};\n\n'
    out += 'use std::fmt;\n\n' + rust_enum('NodeType', types(), "/// A type of node, by ESTree's name for it.\n", '')
    out += '\nimpl NodeType {\n    /// The text of the node\'s field `type`.\n    pub fn name(self) -> &\'static str\n        ensures { result.now ≡ type_name self }\n    {\n        NAMES[self as usize]\n    }\n'
    out += '\n    /// The type of this name, where the table has it.\n    pub fn named(name: &str) -> Option<NodeType>\n        ensures { result ≡ type_named name.now }\n    {\n        among(TYPES.as_slice(), name)\n    }\n}\n'
    out += '\n// By hand, as what a derived one prints is the name.\nimpl fmt::Debug for NodeType {\n    fn fmt<W: fmt::Write>(&self, f: &mut fmt::Formatter<W>) -> fmt::Result {\n        f.write_str(self.name())\n    }\n}\n'
    out += texts('NAMES', types(), 'The name of each type, in the order of the types.')
    out += static('TYPES', 'NodeType', sought_types(), 'The types, those that modules have most of first.')
    return out + search('among', 'NodeType', 'node_type', 'types', 'name', 'name', 'type_among name.now types.now', 'The first of these types that has this name.')


def static(name, enum, vs, doc):
    """A table of all the variants of an enum."""
    return '\n/// %s\nstatic %s: [%s; %d] = [\n%s];\n' % (doc, name, enum, len(vs), ''.join('    %s::%s,\n' % (enum, v) for v in vs))


def texts(name, listed, doc):
    """A table of the texts of an enum's variants, which is looked up in one step, where a match would be proved arm by arm."""
    return '\n/// %s\nstatic %s: [&str; %d] = [\n%s];\n' % (doc, name, len(listed), ''.join('    "%s",\n' % t for t in listed))


def search(function, enum, item, items, text, method, found, doc):
    """A loop over some variants of an enum for the one of a text. A match would prove each text unlike all before it."""
    out = '\n/// %s\nfn %s(%s: &[%s], %s: &str) -> Option<%s>\n    ensures { result ≡ %s }\n{\n' % (doc, function, items, enum, text, enum, found)
    return out + '    for %s in %s {\n        if %s == %s.%s() {\n            return Some(*%s);\n        }\n    }\n    None\n}\n' % (item, items, text, item, method, item)


DOCS = {
    'VariableKind': 'How variables are declared (ECMA-262 14.3).', 'MethodKind': 'What a method of a class is (ECMA-262 15.7).',
    'PropertyKind': 'What a property of an object is (ECMA-262 13.2.5).', 'FunctionKind': 'Where a function stands (ECMA-262 15.2, 15.3).',
    'ClassKind': 'Where a class stands (ECMA-262 15.7).', 'UnaryOperator': 'ECMA-262 13.5.', 'UpdateOperator': 'ECMA-262 13.4.',
    'BinaryOperator': 'ECMA-262 13.6 to 13.12.', 'LogicalOperator': 'ECMA-262 13.13.', 'AssignmentOperator': 'ECMA-262 13.15.',
}


# The words that are found by a search of a table, being many.
SEARCHED = [w for w, _, _, vs in WORDS if len(variants(vs)) > 8]


def among(words): return words.removesuffix('s') + '_among'


def rust_words(file, what):
    """Enums of a file, each with the words of its variants."""
    out = '// %s %s\n' % (what, GENERATED)
    listed = [(w, e, variants(vs)) for w, e, f, vs in WORDS if f == file]
    among_word = 'word_among, ' if any(w in SEARCHED for w, _, _ in listed) else ''
    out += 'ghost use Rattle.std.specs.Prelude.{◌≡◌};\nghost use Rattle.js_syntax.specs.Word.{%s%sword_named, %s};\n' % (''.join('%s_name, ' % snake(e) for _, e, _ in listed), among_word, ', '.join(w for w, _, _ in listed))
    for w, e, vs in listed:
        out += '\n' + rust_enum(e, [v for v, _ in vs], '/// %s\n' % DOCS[e])
        out += '\nimpl %s {\n    /// The word as it is written.\n    pub fn as_str(self) -> &\'static str\n        ensures { result.now ≡ %s_name self }\n    {\n' % (e, snake(e))
        if w in SEARCHED: out += '        %s_TEXTS[self as usize]\n    }\n' % snake(e).upper()
        else: out += '        match self {\n' + ''.join('            %s::%s => "%s",\n' % (e, v, t) for v, t in vs) + '        }\n    }\n'
        if w in SEARCHED:
            out += '\n    /// The word of this text.\n    pub fn named(text: &str) -> Option<%s>\n        ensures { result ≡ word_named %s text.now }\n    {\n        %s(%s.as_slice(), text)\n    }\n}\n' % (e, w, among(w), w.upper())
            out += texts(snake(e).upper() + '_TEXTS', [t for _, t in vs], 'How each operator is written, in the order of the operators.')
            out += static(w.upper(), e, [v for v, _ in vs], 'The %s, in the order of the definitions.' % w.replace('_', ' '))
            out += search(among(w), e, 'operator', 'operators', 'text', 'as_str', 'word_among %s text.now operators.now' % w, 'The first of these operators that is written so.')
            continue
        out += '\n    /// The word of this text.\n    #[tactic(auto, unfolding(crate::specs::Word::word_named))]\n    pub fn named(text: &str) -> Option<%s>\n        ensures { result ≡ word_named %s text.now }\n    {\n        match text {\n' % (e, w)
        out += ''.join('            "%s" => Some(%s::%s),\n' % (t, e, v) for v, t in vs) + '            _ => None,\n        }\n    }\n}\n'
    for e, f, vs in FAMILIES:
        if f == file: out += '\n' + rust_enum(e, vs.split(), '/// %s\n' % DOCS[e])
    return out


FILES = {
    'js_syntax/specs/Name.antt': names, 'js_syntax/specs/Word.antt': words, 'js_syntax/specs/Kind.antt': kind,
    'js_syntax/specs/Class.antt': classes, 'js_syntax/specs/Table.antt': the_table, 'js_syntax/specs/Facts.antt': facts,
    'js_syntax/src/node_type.rt': node_type,
    'js_syntax/src/node_kind.rt': node_kind,
    'js_syntax/src/kind.rt': lambda: rust_words('kind', 'What tells nodes of one type apart.'),
    'js_syntax/src/operator.rt': lambda: rust_words('operator', 'The operators.'),
}


def searches():
    """The lemmas of the searches: the first of those that are left has the text, or it is among the others."""
    out = '-- The searches for a type by its name, and for a word by its text.\n-- %s\n' % GENERATED
    out += 'use Rattle.std.proofs.Common.{◌≡◌, ℕ, ◌+◌, ◌<◌, List, drop, length, Bool, true, false, Some, slice_index_or, if◌then◌else◌, refl, ap, ◌∙◌, sym, drop-cons, add-one}\n'
    out += 'use Rattle.std.specs.Str.{bytes_eq}\n' + enum_uses([('NodeType', 'node_type')])
    out += 'use %sName.{type_among, type_name}\nuse %sWord.{Words, Word, word_among, word_name}\n' % (SYNTAX, SYNTAX)
    out += '''
first : (b : Bool) {A : Type 0} (x r : A) → b ≡ true → (if b then x else r) ≡ x
first true x r e = refl
first false x r e = cc

second : (b : Bool) {A : Type 0} (x r : A) → b ≡ false → (if b then x else r) ≡ r
second true x r e = cc
second false x r e = refl
'''
    for what, params, given, item, name, among in [('type', '', '', 'NodeType', 'type_name', 'type_among s'), ('word', '(w : Words) ', 'w ', 'Word w', 'word_name w', 'word_among w s')]:
        head = '%s(s : List ℕ) (xs : List %s) (i : ℕ) (d : %s) → i < length xs → bytes_eq s (%s (slice_index_or xs i d)) ≡ ' % (params, argument(item), item, name)
        out += '\n-- where this %s has the text, it is the first of those that are left\npub %s_found : %strue → %s (drop i xs) ≡ Some (slice_index_or xs i d)\n' % (what, what, head, among)
        out += '%s_found %ss xs i d h e = ap (%s) (drop-cons xs i d h) ∙ first _ _ _ e\n' % (what, given, among)
        out += '\n-- where it has another, the text is among the others\npub %s_passed : %sfalse → %s (drop i xs) ≡ %s (drop (i + 1) xs)\n' % (what, head, among, among)
        out += '%s_passed %ss xs i d h e = ap (%s) (drop-cons xs i d h) ∙ second _ _ _ e ∙ ap (λ k. %s (drop k xs)) (sym (add-one i))\n' % (what, given, among, among)
    return out


def searching(file, function, items, item, text, method, name, among, uses, given):
    """The proof of a search: where it stands in the list, and its two ways on."""
    place = 'Rattle.js_syntax.proofs.%s.%s.' % (file, function)
    def invariants():
        out = '-- %s\nuse Rattle.std.proofs.Common.{◌≡◌, drop}\nuse %s\nuse %sGiven as goal\n' % (GENERATED, uses, place)
        return out + '\nabbrev pub invariant-loop-%s : goal.invariant-loop-%s\ninvariant-loop-%s l = %s l.%s (drop l.%s-index l.%s) ≡ %s l.%s l.%s\n' % (item, item, item, among, text, item, items, among, text, items)
    def answers():
        what = 'type' if name == 'type' else 'word'
        out = '-- %s\nuse Rattle.std.proofs.Common.{◌∙◌, sym, ap, arith}\nuse Rattle.std.specs.Str.{bytes_eq}\n' % GENERATED
        if given: out += 'use %sWord.{%s}\n' % (SYNTAX, given.strip())
        out += 'use Rattle.js_syntax.proofs.Names.{%s_found, %s_passed}\nuse %sGoals as goal\n' % (what, what, place)
        for goal, lemma, way in [('returns-then-eq', 'found', 'true'), ('loop-%s-preserved' % item, 'passed', 'false')]:
            out += '\npub %s : goal.%s\n%s c =\n    sym (%s_%s %sc.args.%s.now c.args.%s.now c.loop-%s.%s-index _ (omega arith) (ap (bytes_eq c.args.%s.now) (sym c.%s.ensures) ∙ sym c.eq.ensures ∙ c.if-eq.%s))\n    ∙ c.loop-%s.invariant\n' % (goal, goal, goal, what, lemma, given, text, items, item, item, text, method, way, item)
        return out
    return {'js_syntax/proofs/%s/%s/Invariants.antt' % (file, function): invariants, 'js_syntax/proofs/%s/%s/Answers.antt' % (file, function): answers}


def naming(file, enum, function, all_named, among, arg, uses):
    """The proof that a search of the whole table is what the definitions say."""
    return lambda: '-- %s\nuse Rattle.std.proofs.Common.{◌∙◌, ap}\nuse %s\nuse Rattle.js_syntax.proofs.%s.%s.named.Goals as goal\n\npub returns : goal.returns\nunfolding %s\nreturns c = c.%s.ensures ∙ ap (%s c.args.%s.now) c.as_slice.ensures\n' % (GENERATED, uses, file, enum, all_named, function, among, arg)


FILES['js_syntax/proofs/Names.antt'] = searches
FILES['js_syntax/proofs/node_type/NodeType/named/Answers.antt'] = naming('node_type', 'NodeType', 'among', 'type_named', 'type_among', 'name', SYNTAX + 'Name.{type_among, type_named}')
FILES.update(searching('node_type', 'among', 'types', 'node_type', 'name', 'name', 'type', 'type_among', SYNTAX + 'Name.{type_among}', ''))
for w, e, f, _ in WORDS:
    if w in SEARCHED:
        FILES['js_syntax/proofs/%s/%s/named/Answers.antt' % (f, e)] = naming(f, e, among(w), 'word_named', 'word_among ' + w, 'text', SYNTAX + 'Word.{word_among, word_named, %s}' % w)
        FILES.update(searching(f, among(w), 'operators', 'operator', 'text', 'as_str', 'word', 'word_among ' + w, SYNTAX + 'Word.{word_among, %s}' % w, w + ' '))

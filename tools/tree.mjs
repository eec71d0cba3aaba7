// The tree of a JSON value as the program reads it, by the node table: the nodes in order of places, or the first fault.
import { execFileSync } from 'node:child_process';
import { fileURLToPath } from 'node:url';
import { Numeral } from './json.mjs';

const TABLE = JSON.parse(execFileSync('python3', [fileURLToPath(new URL('nodes_json.py', import.meta.url))], { encoding: 'utf8' }));
const TYPES = new Set(Object.values(TABLE.rows).map((row) => row.type));

const isObject = (value) => value instanceof Map;
const isThere = (value) => value !== undefined && value !== null;

// The first fault: the program's line for it, where it is, and what stands there.
export class TreeFault extends Error {
  constructor(line, path, value, node) {
    super(line);
    Object.assign(this, { path, value, node });
  }
}

const EXTRAS = [
  ['async', 'true'], ['generator', 'true'], ['await', 'true'], ['decorators', 'full'], ['attributes', 'full'], ['assertions', 'full'], ['options', 'full'], ['phase', 'any'],
];

const isEmpty = (value) => value === null || value === '' || (Array.isArray(value) && value.length === 0) || (isObject(value) && value.size === 0);
const SAYS_NOTHING = { true: (value) => value !== true, full: isEmpty, any: (value) => value === null };

// Which of the rows of a type is meant, by what the node says.
const CHOICES = {
  a_text_literal: (node) => (typeof node.get('value') === 'string' && !isObject(node.get('regex')) ? 'a_text_literal' : null),
  a_literal: (node) => (isObject(node.get('regex')) ? 'a_reg_exp' : 'a_literal'),
  a_binary_expression: (node) => (node.get('operator') === 'in' ? 'an_in_expression' : 'a_binary_expression'),
  an_assignment_expression: (node) => (node.get('operator') === '=' ? 'an_assignment_expression' : 'a_compound_assignment'),
  a_property: (node) => (['get', 'set'].includes(node.get('kind')) || node.get('method') === true ? 'a_method_property' : 'a_property'),
  a_new_target: (node) => (isObject(node.get('meta')) && node.get('meta').get('name') === 'import' ? 'an_import_meta' : 'a_new_target'),
  an_export_list: (node) => (isThere(node.get('declaration')) ? 'an_export_declaration' : isThere(node.get('source')) ? 'an_export_from' : 'an_export_list'),
};

const isDirective = (value) => isObject(value) && value.get('type') === 'ExpressionStatement' && typeof value.get('directive') === 'string';

export class Tree {
  constructor(value) {
    this.places = [];
    this.node('root', value, '', { line: 'shake: bad field type in ' });
  }

  fault(type, field, path, value, node) {
    throw new TreeFault(`shake: bad field ${field} in ${type}`, path, value, node);
  }

  // The type of the node that a value is; `bad` is the fault of the field that it stands in.
  type(value, path, bad) {
    if (!isObject(value)) throw new TreeFault(bad.line, path, value, bad.node);
    const type = value.get('type');
    if (typeof type !== 'string') throw new TreeFault('shake: bad field type in ', `${path}.type`, type, value);
    if (!TYPES.has(type) || (type === 'Literal' && value.has('bigint'))) throw new TreeFault(`shake: unknown node ${type.replace(/[^A-Za-z0-9_]/gu, '?')}`, path, type, value);
    return type;
  }

  node(wanted, value, path, bad) {
    const type = this.type(value, path, bad);
    const said = TABLE.classes[wanted][type];
    const row = said && (CHOICES[said] ? CHOICES[said](value) : said);
    if (!row) throw new TreeFault(bad.line, path, value, bad.node);
    if (row !== 'a_parenthesized_target') this.places.push({ value, path });
    for (const field of TABLE.rows[row].fields) this.field(type, field, value, `${path}.${field.name}`);
    this.extras(type, value, path);
  }

  field(type, { name, sort, rest }, node, path) {
    const found = node.get(name);
    const bad = { line: `shake: bad field ${name} in ${type}`, node };
    const fail = () => this.fault(type, name, path, found, node);
    if (this[sort]) this[sort](found, path, bad, rest, node, fail);
    else if (['child', 'maybe'].includes(sort)) {
      if (sort === 'maybe' && !isThere(found)) return;
      if (found === undefined) fail();
      this.node(rest[0], found, path, bad);
    } else {
      if (!Array.isArray(found)) fail();
      this.list(sort, sort === 'a_body' ? rest[0] : rest[1], found, path, bad);
    }
  }

  list(sort, wanted, found, path, bad) {
    let isHead = sort === 'a_body';
    found.forEach((one, at) => {
      isHead = isHead && isDirective(one);
      if (sort === 'each_or_hole' && one === null) this.places.push({ value: one, path: `${path}[${at}]` });
      else this.node(isHead ? 'a_prologue' : wanted, one, `${path}[${at}]`, bad);
    });
  }

  extras(type, node, path) {
    for (const [name, sort] of EXTRAS) {
      if (node.has(name) && !SAYS_NOTHING[sort](node.get(name))) this.fault(type, name, `${path}.${name}`, node.get(name), node);
    }
  }

  // Fields that are no nodes.
  a_text(found, path, bad, rest, node, fail) { if (typeof found !== 'string') fail(); }
  a_flag(found, path, bad, rest, node, fail) { if (found !== undefined && typeof found !== 'boolean') fail(); }
  a_mark() {}
  unread() {}
  is_computed(...said) { this.a_flag(...said); }
  is_expression(...said) { this.a_flag(...said); }
  is_shorthand(...said) { this.a_flag(...said); }
  never(found, path, bad, rest, node, fail) { if (found !== undefined && found !== false) fail(); }
  constant(found, path, bad, rest, node, fail) { if (found !== rest[0]) fail(); }
  a_word(found, path, bad, rest, node, fail) { if (!TABLE.words[rest[0]].includes(found)) fail(); }
  null_only(found, path, bad, rest, node, fail) {
    if (!isThere(found)) return;
    this.type(found, path, bad);
    fail();
  }

  a_value(found, path, bad, rest, node, fail) {
    const isWide = found instanceof Numeral ? !found.isWhole() : found === null && typeof node.get('raw') === 'string' && node.get('raw') !== 'null';
    if (isWide) throw new TreeFault('shake: number out of range', path, found instanceof Numeral ? found : node.get('raw'), node);
    if (found === undefined || (typeof found === 'object' && found !== null && !(found instanceof Numeral))) fail();
  }

  // Names, sources and keys, which are objects of JSON and no nodes of the tree.
  named(found, path, bad, types, fail) {
    const type = this.type(found, path, bad);
    if (!types.includes(type)) fail();
    const isText = type === 'Literal';
    if (isText && (isObject(found.get('regex')) || typeof found.get('value') !== 'string')) fail();
    if (!isText && typeof found.get('name') !== 'string') this.fault('Identifier', 'name', `${path}.name`, found.get('name'), found);
    this.extras(type, found, path);
    return isText ? found.get('value') : found.get('name');
  }

  a_name(found, path, bad, rest, node, fail) { return found === undefined ? fail() : this.named(found, path, bad, ['Identifier'], fail); }
  maybe_name(...said) { if (isThere(said[0])) this.a_name(...said); }
  fixed_name(found, path, bad, rest, node, fail) { if (this.a_name(found, path, bad, rest, node, fail) !== rest[0]) fail(); }
  a_module_name(found, path, bad, rest, node, fail) { return found === undefined ? fail() : this.named(found, path, bad, ['Identifier', 'Literal'], fail); }
  maybe_module_name(...said) { if (isThere(said[0])) this.a_module_name(...said); }
  a_source(found, path, bad, rest, node, fail) { return found === undefined ? fail() : this.named(found, path, bad, ['Literal'], fail); }

  a_template_text(found, path, bad, rest, node, fail) {
    const part = (name) => (isObject(found) ? found.get(name) : undefined);
    if (typeof part('raw') !== 'string' || !(part('cooked') === null || typeof part('cooked') === 'string')) fail();
  }

  a_reg_exp_text(found, path, bad, rest, node, fail) {
    if (!isObject(found) || typeof found.get('pattern') !== 'string' || typeof found.get('flags') !== 'string') fail();
  }

  a_key(found, path, bad, [keys], node, fail) {
    if (found === undefined) fail();
    if (node.get('computed') === true) return this.node('expression', found, path, bad);
    const type = this.type(found, path, bad);
    if (type === 'PrivateIdentifier' && keys !== 'property_key') return this.node('private_key', found, path, bad);
    if (type === 'Identifier') return this.named(found, path, bad, ['Identifier'], fail);
    if (type !== 'Literal' || keys === 'member_key' || isObject(found.get('regex'))) fail();
    const value = found.get('value');
    this.a_value(value, `${path}.value`, bad, [], found, () => this.fault('Literal', 'value', `${path}.value`, value, found));
    const isKey = typeof value === 'string' || (value instanceof Numeral && !value.text.startsWith('-'));
    if (!isKey) fail();
    return this.extras(type, found, path);
  }
}

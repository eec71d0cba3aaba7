// Prints the JavaScript of a tree: node tools/print.mjs < tree.json, where the tree is ESTree JSON, as `shake dce` writes it.
// The line of counts behind a tree is passed to standard error. The printer is astring or escodegen, of Debian's packages or of npm's.
import { readFileSync } from 'node:fs';
import { createRequire, Module } from 'node:module';
import { delimiter } from 'node:path';

const FAILED = 70;

function fail(why) {
  console.error(`print.mjs: ${why}`);
  process.exit(FAILED);
}

// Debian's packages stand where only Debian's own node looks.
process.env.NODE_PATH = [process.env.NODE_PATH, '/usr/share/nodejs', '/usr/lib/nodejs'].filter(Boolean).join(delimiter);
Module._initPaths();
const require = createRequire(`${process.cwd()}/`);

function printer() {
  for (const name of ['astring', 'escodegen']) {
    try {
      return require(name).generate;
    } catch (error) {
      if (error.code !== 'MODULE_NOT_FOUND') throw error;
    }
  }
  return fail('there is no printer: install the Debian package node-escodegen, or the npm package escodegen or astring');
}

const print = printer();

function generate(node) {
  try {
    return print(node);
  } catch (error) {
    return fail(`the printer doesn't know this tree: ${error.message}`);
  }
}

const isNode = (value) => value !== null && typeof value === 'object' && typeof value.type === 'string';
const quoted = (text) => (text.includes("'") ? `"${text}"` : `'${text}'`);
// What is printed as it stands: a name with whatever text.
const verbatim = (name) => ({ type: 'Identifier', name });

// The members of a class that escodegen lacks, as text. Each has its semicolon where it wants one.
function field(node) {
  const key = node.computed ? `[${generate(node.key)}]` : generate(node.key);
  const value = node.value ? ` = ${generate({ type: 'SequenceExpression', expressions: [node.value] })}` : '';
  return verbatim(`${node.static ? 'static ' : ''}${key}${value};`);
}

// `export * as`, whose name escodegen forgets.
function all(node) {
  return { type: 'ExpressionStatement', expression: verbatim(`export * as ${generate(named(node.exported))} from ${generate(node.source)}`) };
}

// `??` isn't mixed with `||` and `&&` without parentheses, which escodegen forgets.
function apart(node) {
  const isMixed = (side) => side.type === 'LogicalExpression' && (side.operator === '??') !== (node.operator === '??');
  const side = (one) => (isMixed(one) ? verbatim(`(${generate(one)})`) : one);
  return { ...node, left: side(node.left), right: side(node.right) };
}

// A tree in the forms that both printers know. A module name may be a text, and a directive is written as it was read.
const SHOWN = {
  ParenthesizedExpression: (node) => node.expression,
  PrivateIdentifier: (node) => verbatim(`#${node.name}`),
  LogicalExpression: apart,
  PropertyDefinition: field,
  StaticBlock: (node) => verbatim(`static ${generate({ type: 'BlockStatement', body: node.body })}`),
  ImportSpecifier: (node) => ({ ...node, imported: named(node.imported) }),
  ExportSpecifier: (node) => ({ ...node, local: named(node.local), exported: named(node.exported) }),
  ExportAllDeclaration: (node) => (node.exported ? all(node) : node),
  ExpressionStatement: (node) => (typeof node.directive === 'string' ? { ...node, expression: verbatim(quoted(node.directive)) } : node),
};

function named(name) {
  return name.type === 'Literal' ? verbatim(JSON.stringify(name.value)) : name;
}

function shown(value) {
  if (Array.isArray(value)) return value.map(shown);
  if (!isNode(value)) return value;
  const below = Object.fromEntries(Object.entries(value).map(([name, part]) => [name, shown(part)]));
  return SHOWN[value.type] ? SHOWN[value.type](below) : below;
}

function parsed(text) {
  try {
    return JSON.parse(text);
  } catch {
    return fail('standard input holds no JSON');
  }
}

const text = readFileSync(0, 'utf8').trimEnd();
if (text === '') fail('standard input is empty: there is no tree to print');
const counts = /\n(passes \d+ references \d+)$/.exec(text);
const tree = parsed(counts ? text.slice(0, counts.index) : text);
if (!isNode(tree)) fail('standard input holds JSON, but no node with a type');
const code = generate(shown(tree));
process.stdout.write(code === '' || code.endsWith('\n') ? code : `${code}\n`);
if (counts) console.error(counts[1]);

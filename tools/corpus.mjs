// How much smaller the program writes real modules than it read them: node tools/corpus.mjs [--production] [--esbuild] DIR..
// Each file *.js or *.mjs below the folders is read that is a module, or with --production each that asks for `process.env.NODE_ENV`, of
// which every use is "production" then, as bundlers put it there. A file is parsed by acorn, shaken by ./shake.sh (or by $SHAKE), and
// printed by escodegen without spaces, before and after; what is printed is parsed again. With --esbuild the same is said of what esbuild
// makes of the file with tree shaking; where it is told what NODE_ENV is, also with its syntax minified, and so of what is left here.
// Debian has the packages node-acorn, node-escodegen and esbuild. Symbolic links aren't followed, and files of 400,000 bytes or more and
// *.min.js are left out.
import { spawnSync } from 'node:child_process';
import { lstatSync, readdirSync, readFileSync } from 'node:fs';
import { createRequire, Module } from 'node:module';
import { delimiter, join } from 'node:path';
import { fileURLToPath } from 'node:url';

process.env.NODE_PATH = [process.env.NODE_PATH, '/usr/share/nodejs', '/usr/lib/nodejs'].filter(Boolean).join(delimiter);
Module._initPaths();
const require = createRequire(`${process.cwd()}/`);
const acorn = require('acorn');
const escodegen = require('escodegen');

const MOST = 400_000;
const ROOM = 1 << 28;
const words = process.argv.slice(2);
const folders = words.filter((word) => !word.startsWith('--'));
const production = words.includes('--production');
const beside = words.includes('--esbuild');
const SHAKE = process.env.SHAKE ?? fileURLToPath(new URL('../shake.sh', import.meta.url));

function* filesBelow(folder) {
  for (const name of readdirSync(folder).sort()) {
    const path = join(folder, name);
    const what = lstatSync(path);
    if (what.isDirectory()) yield* filesBelow(path);
    else if (what.isFile() && what.size < MOST && /\.m?js$/.test(name) && !/\.min\./.test(name)) yield path;
  }
}

function parsed(text, sourceType) {
  try {
    return acorn.parse(text, { ecmaVersion: 2022, sourceType, allowReturnOutsideFunction: sourceType === 'script' });
  } catch {
    return null;
  }
}

const isModule = (tree) => tree.body.some((item) => /^(Import|Export)/.test(item.type));
const isNamed = (node, name) => node?.type === 'Identifier' && node.name === name;
const isMember = (node, name) => node?.type === 'MemberExpression' && !node.computed && isNamed(node.property, name);
const asksMode = (node) => isMember(node, 'NODE_ENV') && isMember(node.object, 'env') && isNamed(node.object.object, 'process');

// A tree with "production" for each `process.env.NODE_ENV`.
function inProduction(value) {
  if (Array.isArray(value)) return value.map(inProduction);
  if (value === null || typeof value !== 'object' || value instanceof RegExp) return value;
  if (asksMode(value)) return { type: 'Literal', value: 'production' };
  return Object.fromEntries(Object.entries(value).map(([name, inner]) => [name, inProduction(inner)]));
}

function printed(tree) {
  try {
    return escodegen.generate(tree, { format: { compact: true } });
  } catch {
    return null;
  }
}

const withoutBig = (name, value) => (typeof value === 'bigint' ? null : value);
const namesOfImports = (tree) => tree.body.flatMap((item) => (item.type === 'ImportDeclaration' ? item.specifiers : [])).length;

// What esbuild's text of a file comes to, printed alike.
function sizeByEsbuild(text, module, words) {
  const asked = ['--tree-shaking=true', '--loader=js', ...(module ? ['--format=esm'] : []), ...(production ? ['--define:process.env.NODE_ENV="production"'] : []), ...words];
  const done = spawnSync('esbuild', asked, { input: text, maxBuffer: ROOM });
  const tree = done.status === 0 ? parsed(done.stdout.toString(), module ? 'module' : 'script') : null;
  return (tree && printed(tree))?.length ?? null;
}

const sums = { files: 0, read: 0, changed: 0, imports: 0, names: 0, printed: 0, again: 0, before: 0, after: 0, compared: 0, ours: 0, theirs: 0, minified: 0, both: 0 };
const refused = new Map();

function shaken(path, tree, text) {
  const module = isModule(tree);
  const before = { ...(production ? inProduction(tree) : tree), sourceType: module ? 'module' : 'commonjs' };
  const done = spawnSync(SHAKE, ['dce'], { input: JSON.stringify(before, withoutBig), maxBuffer: ROOM });
  sums.files += 1;
  if (done.status !== 0) {
    const why = done.stderr.toString().trim().replace(/\d+/g, 'N');
    refused.set(why, (refused.get(why) ?? 0) + 1);
    return;
  }
  const [written, counts] = done.stdout.toString().split('\n');
  const after = JSON.parse(written);
  const lost = namesOfImports(before) - namesOfImports(after);
  sums.read += 1;
  sums.changed += /^passes 0 /.test(counts) ? 0 : 1;
  sums.imports += lost > 0 ? 1 : 0;
  sums.names += lost;
  const [whole, left] = [printed(before), printed(after)];
  if (whole === null || left === null) return;
  sums.printed += 1;
  sums.again += parsed(left, module ? 'module' : 'script') ? 1 : 0;
  sums.before += whole.length;
  sums.after += left.length;
  if (beside) compare(text, left, module);
}

function compare(text, left, module) {
  const theirs = sizeByEsbuild(text, module, []);
  const minified = production ? sizeByEsbuild(text, module, ['--minify-syntax']) : 0;
  const both = production ? sizeByEsbuild(left, module, ['--minify-syntax']) : 0;
  if (theirs === null || minified === null || both === null) return;
  sums.compared += 1;
  sums.ours += left.length;
  sums.theirs += theirs;
  sums.minified += minified;
  sums.both += both;
}

for (const folder of folders) {
  for (const path of filesBelow(folder)) {
    const text = readFileSync(path, 'utf8');
    if (production && !text.includes('process.env.NODE_ENV')) continue;
    const tree = parsed(text, 'module') ?? (production ? parsed(text, 'script') : null);
    if (tree && (production || isModule(tree))) shaken(path, tree, text);
  }
}

console.log(`${sums.files} files, ${sums.read} read, ${sums.changed} changed; ${sums.imports} lose names of imports, ${sums.names} names`);
console.log(`printed: ${sums.before} bytes before, ${sums.after} after; ${sums.again} of ${sums.printed} parse again`);
if (beside) console.log(`esbuild on ${sums.compared}: ${sums.theirs} bytes, where ${sums.ours} are left here`);
if (beside && production) console.log(`with syntax minified: ${sums.minified} bytes, and ${sums.both} of what is left here`);
for (const [why, times] of [...refused].sort((one, other) => other[1] - one[1])) console.log(`${times} refused: ${why}`);

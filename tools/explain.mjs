// Says more of a refusal: reads its line from standard input, and the input that was refused from a file, and finds the place there.
//   ./shake.sh dce < tree.json 2>&1 >shaken.json | node tools/explain.mjs tree.json [source.js]
// With the JavaScript that the tree was parsed from, places are told by line and column too.
import { readFileSync } from 'node:fs';
import { JsonFault, MAX_NESTING, Numeral, parseJson } from './json.mjs';
import { Tree, TreeFault } from './tree.mjs';

const FAILED = 70;
const DEFINITIONS = new URL('../docs/DEFINITIONS.md', import.meta.url);

function fail(why) {
  console.error(`explain.mjs: ${why}`);
  process.exit(FAILED);
}

function read(file) {
  try {
    return readFileSync(file);
  } catch (error) {
    return fail(`${file} can't be read: ${error.message}`);
  }
}

// Line and column of an offset, both from 1.
function position(text, at) {
  const before = text.slice(0, at).split('\n');
  return `line ${before.length}, column ${before.at(-1).length + 1}`;
}

const [file, sourceFile] = process.argv.slice(2);
if (!file) fail('usage: node tools/explain.mjs tree.json [source.js] < line');
const line = read(0).toString().split('\n').map((one) => one.trimEnd()).find((one) => one.startsWith('shake: ')) ?? fail('standard input has no line of a refusal, which begins with "shake: "');
const source = sourceFile && read(sourceFile).toString();

function offset(node) {
  const start = node instanceof Map ? node.get('start') : undefined;
  if (!(start instanceof Numeral)) return 'without a start';
  return `start ${start.text}${source === undefined ? '' : ` (${position(source, Number(start.text))})`}`;
}

function rule(number) {
  const found = new RegExp(`^${number}\\. (.*)$`, 'm').exec(readFileSync(DEFINITIONS, 'utf8'));
  return found ? found[1] : 'docs/DEFINITIONS.md has no such rule';
}

function shown(value) {
  if (value === undefined) return 'nothing';
  if (value instanceof Numeral) return value.text;
  if (value instanceof Map) return `a ${value.get('type') ?? 'object without a type'}`;
  return Array.isArray(value) ? `a list of ${value.length}` : JSON.stringify(value);
}

const place = (path) => `at ${path === '' ? 'the top' : path.replace(/^\./, '')}`;

// What the input says, by the rules of reading: the tree, or the first fault.
function looked() {
  try {
    const { value } = parseJson(read(file));
    return { tree: new Tree(value) };
  } catch (error) {
    if (error instanceof JsonFault || error instanceof TreeFault) return { error };
    throw error;
  }
}

function jsonFault({ error }) {
  if (!(error instanceof JsonFault)) return `${file} is JSON within the limit of nesting here, so the line isn't of this input`;
  const advice = error.message.startsWith('nested') ? `: a tree nests about twice as deep as its source; the limit is ${MAX_NESTING}` : '';
  return `${error.message}, ${position(read(file).toString(), error.at)} of ${file}${advice}`;
}

function treeFault({ error }, wanted) {
  if (!(error instanceof TreeFault) || error.message.trimEnd() !== wanted) return `the first fault of ${file} is another: ${error ? error.message : 'none'}`;
  if (wanted === 'shake: number out of range') return `${place(error.path)} stands the number ${shown(error.value)} (${offset(error.node)}): only whole numbers within 2^53 - 1, written without fraction and exponent, are read`;
  if (wanted.startsWith('shake: unknown node')) return `${place(error.path)} stands a node of a type that isn't read: ${shown(error.value)} (${offset(error.node)})`;
  return `${place(error.path)} stands ${shown(error.value)}, which may not stand there, in a ${error.node ? error.node.get('type') : 'program'} (${offset(error.node)})`;
}

function brokenRule({ tree }, number, at) {
  const node = tree && tree.places[at];
  if (!node) return `${file} has no node at place ${at}, so the line isn't of this input`;
  const kind = node.value === null ? 'a hole' : node.value.get('type');
  return `the node at place ${at} is ${kind}, ${offset(node.value)}, ${place(node.path)}\nrule ${number}: ${rule(number)}`;
}

const ANSWERS = [
  [/^shake: usage: /, () => 'the words must be `dce`, or `dce --tree-only`'],
  [/^shake: read fault$/, () => 'the system failed a read of standard input; try again, or from a file'],
  [/^shake: input too long$/, () => 'the input has more than 2^28 bytes; where it is several modules, shake them one by one'],
  [/^shake: not JSON$/, () => jsonFault(looked())],
  [/^shake: (unknown node|bad field|number out of range)/, () => treeFault(looked(), line)],
  [/^shake: too large: nodes (\d+) levels (\d+)$/, () => 'at most 16777216 nodes and 1000 levels are taken; where the input is several modules, shake them one by one'],
  [/^shake: ill formed: rule (\d+) at (\d+)$/, (said) => brokenRule(looked(), said[1], Number(said[2]))],
  [/^shake: write fault$/, () => 'the system failed a write of standard output, of which a front may have gone out: was the reader gone, or the disk full?'],
  [/^shake: out of memory$/, () => 'memory was short: a run takes some 25 times the bytes of its input'],
];

const answer = ANSWERS.map(([form, said]) => [form.exec(line), said]).find(([found]) => found) ?? fail(`no refusal has this line: ${line}`);
console.log(`${line}\n${answer[1](answer[0])}`);

// Tries that tools/tree.mjs reads as the program does: node tools/test_explain.mjs PROGRAM, at the top of the repository, where PROGRAM is
// the file that ./shake.sh build or ./shake.sh try dce leaves below out/. Each row of test_shake that is a text is read by both, and so is, with a `break`
// behind it that breaks rule 3, each that is accepted: both must tell the same first fault, and the same place.
import { spawnSync } from 'node:child_process';
import { readFileSync } from 'node:fs';
import { JsonFault, parseJson } from './json.mjs';
import { Tree, TreeFault } from './tree.mjs';

const program = process.argv[2];
const lines = readFileSync('crates/test_shake/stdin', 'utf8').split('\n');
const other = /^(words|unread|read|write|room|call|span|codes) [^:]*:/;
const rows = lines.filter((line) => line !== '' && !line.startsWith('//') && !other.test(line)).map((line) => line.replace(/^--tree-only /, ''));

function answer(row) {
  const ran = spawnSync(program, ['dce'], { input: row });
  return { status: ran.status, line: String(ran.stderr).trimEnd() };
}

function fault(row) {
  try {
    return { tree: new Tree(parseJson(Buffer.from(row)).value), line: '' };
  } catch (error) {
    if (error instanceof JsonFault) return { line: '' };
    if (!(error instanceof TreeFault)) throw error;
    return { line: error.message.trimEnd() };
  }
}

// The place of a `break` behind the row, as the program and as the tree tells it.
function places(row) {
  const program = JSON.parse(row);
  program.body.push({ type: 'BreakStatement', label: null });
  const broken = JSON.stringify(program);
  return [answer(broken).line, `shake: ill formed: rule 3 at ${fault(broken).tree.places.length - 1}`];
}

let differing = 0;
for (const row of rows) {
  const said = answer(row);
  const pairs = [[said.status === 5 ? said.line : '', fault(row).line], ...(said.status === 0 ? [places(row)] : [])];
  for (const [one, other] of pairs) {
    if (one === other) continue;
    differing += 1;
    console.log(`${one} | ${other} | ${row.slice(0, 200)}`);
  }
}
console.log(`${rows.length} rows, ${differing} differences`);
process.exit(differing === 0 ? 0 : 1);

// The module's words, listings and values in node, against docs/ANSWERS.md, docs/INSTRUCTIONS.md, what the program `listing` must print and what the
// native library gives: node viewer/module.test.mjs FOLDER
import { existsSync, readFileSync } from "node:fs";
import { pathToFileURL } from "node:url";
import { nativeValues, there, TYPED, VALUES } from "./values.mjs";

const folder = process.argv[2];
const { load, CODE_BYTES, LISTING_BYTES, MEMORY_BYTES, WORDS_BYTES } = await import(pathToFileURL(`${folder}/formula.mjs`));
const formulas = await load(readFileSync(`${folder}/formula.wasm`));
let failed = 0;
function same(what, found, expected) {
  if (JSON.stringify(found) === JSON.stringify(expected)) return;
  console.log(`${what}: ${JSON.stringify(found)}, expected ${JSON.stringify(expected)}`);
  failed++;
}

// ---- words: every answer of the page of answers has some, and no other number has ----

function words(answer) {
  const text = new Uint8Array(WORDS_BYTES + 3).fill(46);
  const length = formulas.words(answer, text);
  same(`the bytes behind the words of ${answer}`, [...text.subarray(length)].every((b) => b === 46), true);
  const short = new Uint8Array(5).fill(46);
  same(`words of ${answer} in five bytes`, formulas.words(answer, short), length);
  const shown = Buffer.from(text.subarray(0, length)).toString("latin1");
  same(`the first words of ${answer}`, Buffer.from(short).toString("latin1"), shown.slice(0, 5).padEnd(5, "."));
  return shown;
}
const page = readFileSync("docs/ANSWERS.md", "utf8");
const answers = [...page.matchAll(/^## ([0-9]+):/gm)].map(([, number]) => Number(number));
for (let answer = 0; answer < 40; answer++) same(`answer ${answer} has words`, words(answer) !== "", answers.includes(answer));
same("no answer", [words(4294967295), words(256)], ["", ""]);
const table = [...page.matchAll(/^\| ([0-9]+) \| (.*) \|$/gm)];
same("answers of the table", table.map(([, number]) => Number(number)), answers);
for (const [, number, text] of table) same(`words of ${number}`, words(Number(number)), text);

// ---- listings: the name of every opcode of the page of instructions ----

function listing(code, count) {
  const text = new Uint8Array(LISTING_BYTES);
  const { answer, length } = formulas.listing(code, count, text);
  return answer === 0 ? Buffer.from(text.subarray(0, length)).toString("latin1") : `answer=${answer}`;
}

const REAL = 0x3fc00000, RANGE = 4 + 256 * 3 + 65536 * 2; // 1.5; two cells from D3 on
// Values before the opcode, so that the check accepts the code; a jump leads to the end, and another value stands there where it took one.
function codeOf(opcode, word, takes) {
  const instructions = [...Array.from(takes, (kind) => (kind === "r" ? [2, REAL] : [1, 7])), [opcode, word]];
  if (opcode === 3) instructions.unshift([1, 7]);
  if (opcode === 4 || opcode === 5) instructions.unshift([1, 9]);
  const code = new Uint8Array(8 * instructions.length), view = new DataView(code.buffer);
  instructions.forEach(([first, second], i) => {
    view.setUint32(8 * i, first, true);
    view.setUint32(8 * i + 4, second, true);
  });
  return [code, instructions.length];
}
const rows = readFileSync("docs/INSTRUCTIONS.md", "utf8").split("\n").filter((line) => /^\| [0-9]+ \|/.test(line));
let named = 0;
for (const row of rows) {
  const [, opcode, name, word, takes] = row.split(/(?<!\\)\|/).map((cell) => cell.trim());
  const plain = name.replace(/`/g, "").replace(/\\/g, "").replace(/,.*/, "");
  const given = Number(opcode) === 2 ? REAL : word.startsWith("element") ? 5 : word === "range" ? RANGE : 0;
  const [code, count] = codeOf(Number(opcode), given, takes);
  const end = { 1: " 0", 2: " 0x3FC00000", 3: ` ${count}`, 4: ` ${count}`, 5: ` ${count}` }[opcode];
  const operand = end ?? (word.startsWith("element") ? "5" : word === "range" ? " D3 2" : "");
  same(`opcode ${opcode}`, listing(code, count).split("\n")[count - 1], `${count - 1} ${plain}${operand}`);
  named++;
}
same("opcodes of the page", named, 63);
const [code] = codeOf(1, 7, "");
same("no instruction", listing(code, 0), "answer=15");
same("more than there are", listing(code, 2), "answer=15");
same("a text of 65,535 bytes", formulas.listing(code, 1, new Uint8Array(LISTING_BYTES - 1)), { answer: 10, length: 0 });
same("another opcode", listing(Uint8Array.of(255, 0, 0, 0, 0, 0, 0, 0), 1), "answer=15");

// ---- what the program `listing` printed ----

function reply(target, expr) {
  const index = new Uint8Array(CODE_BYTES), code = new Uint8Array(CODE_BYTES);
  const aim = formulas.compileTarget(target, index);
  const made = aim.answer === 0 ? formulas.compile(expr, code) : aim;
  if (made.answer !== 0) return `answer=${made.answer}\nplace=${made.place}\nwords=${words(made.answer)}\n`;
  return listing(code, made.count) + (aim.count > 0 ? `index=${"XCVNDR"[aim.bank]}\n${listing(index, aim.count)}` : "");
}
if (existsSync("crates/listing_cases/stdout")) {
  const cases = readFileSync("crates/listing_cases/stdin", "latin1").replace(/\n$/, "").split("\n");
  const printed = cases.map((line) => reply(...line.split("|", 1), line.slice(line.indexOf("|") + 1)) + "\n").join("");
  same("listing_cases", printed === readFileSync("crates/listing_cases/stdout", "latin1"), true);
  console.log(`${cases.length} listings as the native program prints them`);
} else console.log("crates/listing_cases is missing: its listings are left out");

// ---- what evaluating gives ----

function evaluated({ expr, cells, tick }) {
  const memory = new Uint8Array(MEMORY_BYTES), code = new Uint8Array(CODE_BYTES), index = new Uint8Array(CODE_BYTES);
  for (const [cell, value] of Object.entries(cells)) {
    const element = Number(cell.slice(1)), tried = memory.slice();
    if (cell[0] === "X") memory[element >> 3] |= Number(value) << element % 8;
    else if (formulas.compileAndRun(cell, value, tried, code, index, Number(tick)).answer === 0) memory.set(tried);
  }
  const { answer, kind, bits, count } = formulas.evaluate(code, formulas.compile(expr, code).count, memory, Number(tick));
  return { answer, kind, bits, count };
}
if (there()) {
  const cases = [...VALUES, ...TYPED];
  nativeValues(cases).forEach(({ answer, kind, bits, count }, i) => same(`value of case ${i}`, evaluated(cases[i]), { answer, kind, bits, count }));
  console.log(`${cases.length} values as the native library gives them`);
} else console.log("target/viewer/evaluate is missing: values are not compared with the native library's");
console.log(failed === 0 ? `${named} names of instructions, words of ${answers.length} answers: good` : `${failed} differ`);
process.exit(failed === 0 ? 0 : 1);

// Tests formula.wasm and formula.mjs in node: node controller/web/test.mjs FOLDER VECTORS-IN VECTORS-OUT [CALLS]
// FOLDER has what build.sh wrote; CALLS was recorded on x86-64 (controller/calls).
import { readFileSync } from "node:fs";
import { pathToFileURL } from "node:url";
import { replay } from "../calls/replay.mjs";

const [folder, vectorsIn, vectorsOut, calls] = process.argv.slice(2);
const wasm = readFileSync(`${folder}/formula.wasm`);
const library = await import(pathToFileURL(`${folder}/formula.mjs`));
const { load, MEMORY_BYTES, CODE_BYTES, OLD_MEMORY_BYTES, OPERATIONS } = library;
const formulas = await load(wasm);

let failed = 0;
function same(what, found, expected) {
  const [a, b] = [found, expected].map((value) => JSON.stringify(value));
  if (a === b) return;
  console.log(`${what}: ${a}, expected ${b}`);
  failed++;
}

// ---- the module: nothing is wanted of others, and every operation is there ----

function testModule() {
  const module = new WebAssembly.Module(wasm);
  same("imports", WebAssembly.Module.imports(module), []);
  const exported = WebAssembly.Module.exports(module).map(({ name }) => name);
  for (const name of Object.keys(OPERATIONS)) same(`${name} is exported`, exported.includes(`formula_${name}`), true);
}

// ---- the gate's vectors ----

// Where a bank stands, how many bits an element has there, and whether it has a sign.
const BANKS = { X: [1, false], C: [1, false], V: [16, false], N: [16, true], D: [32, true], R: [32, false] };
const CELL = /^([XCVNDR])([0-9]+)$/;

function setCell(memory, bank, element, value) {
  const view = new DataView(memory.buffer);
  const at = library[bank];
  if (BANKS[bank][0] === 1) {
    const bit = 1 << element % 8, byte = at + (element >> 3);
    memory[byte] = value === 0 ? memory[byte] & ~bit : memory[byte] | bit;
  } else if (BANKS[bank][0] === 16) view.setUint16(at + 2 * element, value, true);
  else view.setUint32(at + 4 * element, value, true);
}

function shownCell(memory, bank, element) {
  const view = new DataView(memory.buffer);
  const at = library[bank];
  if (bank === "R") return `0x${view.getUint32(at + 4 * element, true).toString(16).toUpperCase().padStart(8, "0")}`;
  if (BANKS[bank][0] === 1) return `${(memory[at + (element >> 3)] >> element % 8) & 1}`;
  if (bank === "V") return `${view.getUint16(at + 2 * element, true)}`;
  return `${bank === "N" ? view.getInt16(at + 2 * element, true) : view.getInt32(at + 4 * element, true)}`;
}

// One case: lines of key=value, in bytes, since a text may hold any.
function caseReply(lines) {
  const memory = new Uint8Array(MEMORY_BYTES);
  const texts = { target: "", expr: "" };
  for (const line of lines) {
    const at = line.indexOf("="), key = line.slice(0, at), value = line.slice(at + 1);
    const cell = key.match(CELL);
    if (key in texts) texts[key] = value;
    else if (cell) setCell(memory, cell[1], Number(cell[2]), Number(value));
  }
  const [target, expr] = [texts.target, texts.expr].map((text) => Buffer.from(text, "latin1"));
  const codes = [new Uint8Array(CODE_BYTES), new Uint8Array(CODE_BYTES)];
  const { answer, place, bank, element } = formulas.compileAndRun(target, expr, memory, ...codes);
  const letter = "XCVNDR"[bank];
  const stored = answer === 0 ? `${letter}${element}=${shownCell(memory, letter, element)}\n` : "";
  return `answer=${answer}\nplace=${place}\n${stored}`;
}

function testVectors() {
  const cases = readFileSync(vectorsIn, "latin1").replace(/\n+$/, "").split("\n\n");
  const replies = readFileSync(vectorsOut, "latin1").split("\n\n");
  cases.forEach((text, i) => same(`vector ${i + 1}`, caseReply(text.split("\n")), `${replies[i]}\n`));
  console.log(`formula.wasm: ${cases.length} vectors of the gate`);
}

// ---- every method once, on cases that can be followed by hand ----

function testMethods() {
  const code = new Uint8Array(CODE_BYTES), index = new Uint8Array(CODE_BYTES), memory = new Uint8Array(MEMORY_BYTES);
  const short = ({ answer, bits, bank, element }) => [answer, bits, bank, element];
  const { count } = formulas.compile("D0 + 7", code);
  same("compile", count, 3);
  same("check", formulas.check(code, count).answer, 0);
  const found = formulas.compileTarget("D[2 + 3]", index);
  same("compileTarget", [found.answer, found.bank, found.count], [0, library.BANK_D, 3]);
  same("evaluate", short(formulas.evaluate(code, count, memory)), [0, 7, 0, 0]);
  same("run", short(formulas.run(code, count, memory, "D", index, found.count)), [0, 7, library.BANK_D, 5]);
  same("run, memory", shownCell(memory, "D", 5), "7");
  same("store", short(formulas.store(0, 9, memory, "V3")), [0, 9, library.BANK_V, 3]);
  same("tick", formulas.compileAndRun("D1", "SINCE(5)", memory, code, index, 12).bits, 7);
  const list = new Uint16Array(4);
  formulas.compile("D2 + X1", code);
  same("cells", [formulas.cells(code, 3, index, 0, list), ...list], [2, 1, 642, 0, 0]);
  const places = Uint32Array.of(0, 2, 2, 6, 8, 2, 10, 3);
  const { answer, answers } = formulas.runList(places, "D0D0 + 1C01/0", memory, code, index);
  same("runList", [answer, answers.slice(0, 3), answers.length], [0, [0, 11, 0], library.LISTED]);
  testCards(memory);
  const old = new Uint8Array(OLD_MEMORY_BYTES);
  same("unpack", formulas.unpack(memory, old), 0);
  const again = new Uint8Array(MEMORY_BYTES);
  same("pack", formulas.pack(old, again), 0);
  same("pack, bytes", Buffer.compare(again, memory), 0);
  const text = new Uint8Array(65536), shown = (length) => Buffer.from(text.subarray(0, length)).toString("latin1");
  const saved = formulas.format("1+2*3", text);
  same("format", [saved.answer, shown(saved.count)], [0, "1 + (2 * 3)"]);
  formulas.compile("D2 + 7", code);
  const listed = formulas.listing(code, 3, text);
  same("listing", [listed.answer, shown(listed.length)], [0, "0 LOAD D2\n1 PUSH_INT 7\n2 +\n"]);
  same("words", shown(formulas.words(11, text)), "divided by zero");
  same("a buffer that is missing", thrown(() => formulas.compile("1")), "TypeError");
}

function testCards(memory) {
  const file = new Uint8Array(100);
  const written = formulas.cardsWrite("D1TICKms()", Uint32Array.of(3, 0, 2, 2, 8), file);
  same("cardsWrite", written.answer, 0);
  const cards = file.subarray(0, written.length);
  const read = formulas.cardsRead(cards);
  same("cardsRead", [read.answer, read.count, read.cards[0].number, read.cards[0].expr_len], [0, 1, 3, 8]);
  const kept = new Uint8Array(200), named = new Uint8Array(700);
  const { answer, kept: bytes } = formulas.salvage(Buffer.concat([Buffer.from("no card\n"), cards]), kept, named);
  same("salvage", [answer, Buffer.compare(kept.subarray(0, bytes), cards)], [0, 0]);
  const out = new Uint8Array(256);
  let state = { at: 0, tick: 0, done: 0, written: 0 }, text = "";
  while (state.done === 0) {
    state = formulas.replay(cards, "tick=0x0000000A\nrun=3\n", memory, out, state);
    text += Buffer.from(out.subarray(0, state.written)).toString("latin1");
  }
  same("replay", text.includes("D1=10\n"), true);
}

function thrown(action) {
  try {
    action();
  } catch (error) {
    return error.name;
  }
}

testModule();
testVectors();
testMethods();
if (calls !== undefined) failed += replay(formulas, OPERATIONS, readFileSync(calls));
console.log(failed === 0 ? "formula.wasm: all as on x86-64" : `formula.wasm: ${failed} differ`);
process.exit(failed === 0 ? 0 : 1);

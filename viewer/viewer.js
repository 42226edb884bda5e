// The page moves bytes into the box's module and out of it, and shows them. It reads no formula: no tokens, no numbers of formulas, no checks, no
// grammar. A value that is typed goes to the module as a formula. What the script does by itself, none of which reads a formula:
// - splits bytes at byte 10, and finds lines by their keys: `target=` and `expr=` in a part left out, `run=` in a log, `answer=` and `unknown=` in what
//   replay prints;
// - parses the decimals of what salvage and replay print: where a part begins, its length and its answer, and the answer of a run;
// - names a cell from its number (formula_cells), and decides which cells a target may write: its own, or the whole bank where it has an index;
// - shows an integer, a single (its decimal and its pattern) and a bit, and sets the bit of an input that is ticked.
// This script is tested (viewer/test.sh) and not proved; the module is proved.

const BOOK_LIMIT = 262144;
const LOG_LIMIT = 16 * 1024 * 1024;
const REPLAY_BYTES = 1 << 20;
const ROWS = 500;
const BANKS = "XCVNDR";
const FIRST_NUMBERS = [0, 64, 128, 384, 640, 896]; // formula_cells: the number of each bank's first cell
const CELLS = 1152;
const PLACES = [X, C, V, N, D, R];
const FLAGS = [["IndexError", INDEX_ERROR], ["OutOfRange", OUT_OF_RANGE], ["Overflow", OVERFLOW], ["DividedByZero", DIVIDED_BY_ZERO]];

const formulas = await load(Uint8Array.from(atob(MODULE), (letter) => letter.charCodeAt(0)));
const byId = (id) => document.getElementById(id);
const state = { book: null, card: null, memory: new Uint8Array(MEMORY_BYTES), log: null };

// ---- bytes and elements ----

// Printable ASCII as it is; any other byte, and the backslash, by its number, so that no two texts are shown alike.
const shown = (bytes) =>
  Array.from(bytes, (b) => (b >= 32 && b < 127 && b !== 92 ? String.fromCharCode(b) : `\\x${b.toString(16).toUpperCase().padStart(2, "0")}`)).join("");

function splitLines(bytes) {
  const lines = [];
  let from = 0;
  for (let end = bytes.indexOf(10); end !== -1; end = bytes.indexOf(10, from)) {
    lines.push(bytes.subarray(from, end));
    from = end + 1;
  }
  if (from < bytes.length) lines.push(bytes.subarray(from));
  return lines;
}

// What follows a key in the first line that begins with it.
function valueOf(lines, key) {
  const line = lines.find((bytes) => shown(bytes.subarray(0, key.length)) === key);
  return line && line.subarray(key.length);
}

const counted = (number, what) => `${number} ${what}${number === 1 ? "" : "s"}`;

function element(tag, text, classes) {
  const made = document.createElement(tag);
  if (text !== undefined) made.textContent = text;
  if (classes) made.className = classes;
  return made;
}

function tell(id, text, good) {
  byId(id).textContent = text;
  byId(id).className = good === undefined ? "" : good ? "good" : "bad";
}

// The next rows of a table, and how many of all are shown.
function showMore(view, all, rowOf) {
  const body = byId(`${view}-rows`).tBodies[0], from = body.rows.length;
  body.append(...all.slice(from, from + ROWS).map((each, i) => rowOf(each, from + i)));
  byId(`${view}-more`).hidden = body.rows.length === all.length;
  byId(`${view}-more`).textContent = `Show more: ${body.rows.length} of ${all.length} are shown`;
}

// ---- what the module says ----

const wordsBuffer = new Uint8Array(WORDS_BYTES);
function wordsOf(answer) {
  return shown(wordsBuffer.subarray(0, formulas.words(answer, wordsBuffer)));
}

const refusal = (answer) => `answer ${answer}, ${wordsOf(answer)}`;

function compiled(target, expr) {
  const code = new Uint8Array(CODE_BYTES), index = new Uint8Array(CODE_BYTES);
  return { code, index, aim: formulas.compileTarget(target, index), report: formulas.compile(expr, code) };
}

// The numbers of the cells that code reads, and of those that its target may write.
function touched(made) {
  const list = new Uint16Array(CELLS);
  const found = formulas.cells(made.code, made.report.count, made.index, made.aim.count, list);
  const from = FIRST_NUMBERS[made.aim.bank];
  const whole = (FIRST_NUMBERS[made.aim.bank + 1] ?? CELLS) - from;
  const writes = made.aim.count === 0 ? [from + made.aim.element] : Array.from({ length: whole }, (_, i) => from + i);
  return { reads: list.slice(0, found), writes };
}

const bankOf = (number) => FIRST_NUMBERS.findLastIndex((first) => first <= number);
const nameOf = (number) => `${BANKS[bankOf(number)]}${number - FIRST_NUMBERS[bankOf(number)]}`;

// Neighbours as one: D0 to D9.
function namesOf(numbers) {
  const parts = [];
  for (let i = 0; i < numbers.length; i++) {
    const first = i;
    while (i + 1 < numbers.length && numbers[i + 1] === numbers[i] + 1 && bankOf(numbers[i + 1]) === bankOf(numbers[i])) i++;
    parts.push(i - first > 1 ? `${nameOf(numbers[first])} to ${nameOf(numbers[i])}` : Array.from(numbers.slice(first, i + 1), nameOf).join(", "));
  }
  return parts.join(", ");
}

const pattern = (bits) => `0x${(bits >>> 0).toString(16).toUpperCase().padStart(8, "0")}`;

// The shortest decimal whose nearest single it is.
function decimal(value) {
  if (!Number.isFinite(value) || value === 0) return Object.is(value, -0) ? "-0" : `${value}`;
  let digits = 1;
  while (Math.fround(Number(value.toPrecision(digits))) !== value) digits++;
  return `${Number(value.toPrecision(digits))}`;
}
const single = (bits) => `${decimal(new Float32Array(Uint32Array.of(bits).buffer)[0])} (${pattern(bits)})`;

function held(memory, number) {
  const bank = bankOf(number), item = number - FIRST_NUMBERS[bank];
  const view = new DataView(memory.buffer);
  if (bank < 2) return `${(memory[PLACES[bank] + (item >> 3)] >> item % 8) & 1}`;
  if (bank === 2) return `${view.getUint16(PLACES[bank] + 2 * item, true)}`;
  if (bank === 3) return `${view.getInt16(PLACES[bank] + 2 * item, true)}`;
  if (bank === 4) return `${view.getInt32(PLACES[bank] + 4 * item, true)}`;
  return single(view.getUint32(PLACES[bank] + 4 * item, true));
}

// A text whose byte at a place is marked, in pieces. The mark is an element around the byte, so that the caret goes where a break of the line takes the
// byte; behind the last byte it is an empty one.
function marked(bytes, place) {
  const mark = element("mark"), caret = element("span", "^", "caret");
  const spoken = element("span", place < bytes.length ? "refused here: " : "refused here, at the end", "unseen");
  caret.setAttribute("aria-hidden", "true");
  mark.append(spoken, caret, element("u", shown(bytes.subarray(place, place + 1))));
  return [shown(bytes.subarray(0, place)), mark, shown(bytes.subarray(place + 1))];
}

// A text as it is, and below it why it is refused, with the byte that this is about; the place counts from the end of a key.
function judged(bytes, { answer, place }, key = 0) {
  if (answer === 0) return [shown(bytes)];
  const aboutByte = answer >= BAD_BYTES && answer <= BAD_KIND;
  const where = !aboutByte ? "" : key + place < bytes.length ? `, at byte ${place}` : `, at its end, byte ${place}`;
  return [...(aboutByte ? marked(bytes, key + place) : [shown(bytes)]), "\n", element("span", refusal(answer) + where, "bad")];
}

// ---- the book ----

function cardsOf(bytes) {
  const { answer, place, count, cards } = formulas.cardsRead(bytes);
  const rows = cards.slice(0, count).map((card) => ({
    kept: true,
    label: `${card.number}`,
    at: card.target,
    target: bytes.subarray(card.target, card.target + card.target_len),
    expr: bytes.subarray(card.expr, card.expr + card.expr_len),
  }));
  return { answer, place, rows };
}

function partsOf(bytes, named) {
  const numbers = splitLines(named).map((line) => Number(shown(line).replace(/^[a-z]+=/, "")));
  const parts = [];
  for (let i = 0; i + 2 < numbers.length; i += 3) {
    const part = bytes.subarray(numbers[i], numbers[i] + numbers[i + 1]);
    const lines = splitLines(part);
    const [target, expr] = [valueOf(lines, "target="), valueOf(lines, "expr=")];
    const label = shown(lines[0].subarray(0, 40));
    parts.push({ kept: false, label, first: numbers[i], length: numbers[i + 1], answer: numbers[i + 2], lines, target, expr });
  }
  return parts;
}

// A good book has its cards; of another, salvage says which parts are kept and which are left out. Together they are the file, in its order.
function readBook(bytes) {
  const read = cardsOf(bytes);
  if (read.answer === 0) return { ...read, bytes, kept: bytes };
  const keptBuffer = new Uint8Array(bytes.length), named = new Uint8Array(6 * bytes.length + 64);
  const salvaged = formulas.salvage(bytes, keptBuffer, named);
  const kept = keptBuffer.subarray(0, salvaged.kept);
  const cards = cardsOf(kept).rows, rows = [];
  let at = 0, keptAt = 0;
  for (const part of partsOf(bytes, named.subarray(0, salvaged.named))) {
    keptAt += part.first - at;
    while (cards.length > 0 && cards[0].at < keptAt) rows.push(cards.shift());
    rows.push(part);
    at = part.first + part.length;
  }
  return { answer: read.answer, place: read.place, rows: rows.concat(cards), bytes, kept };
}

function bookRow(row) {
  const line = element("tr", undefined, row.kept ? "" : "left-out");
  const first = element("td"), open = element("button", row.kept ? row.label : "open");
  const span = row.kept ? "" : `left out: bytes ${row.first} to ${row.first + row.length - 1}`;
  open.setAttribute("aria-label", row.kept ? `${row.label}, open the card` : `open what is ${span}`);
  open.addEventListener("click", () => openCard(row, open));
  if (row.expr && row.target) first.append(open);
  if (row.kept) line.append(first, cellOf(shown(row.target)), cellOf(shown(row.expr)), element("td", "good", "good"));
  else {
    first.append(element("span", span));
    first.colSpan = 2;
    line.append(first, cellOf(...leftOutText(row)), element("td", refusal(row.answer), "bad"));
  }
  return line;
}

function cellOf(...pieces) {
  const cell = element("td"), text = element("pre");
  text.append(...pieces);
  cell.append(text);
  return cell;
}

// The lines of a part as they are; below its target and its expression their own refusals. A line is that of a value if both end alike.
function leftOutText({ lines, target, expr }) {
  const room = new Uint8Array(CODE_BYTES), values = [];
  if (target) values.push([target, formulas.compileTarget(target, room)]);
  if (expr) values.push([expr, formulas.compile(expr, room)]);
  const endOf = (bytes) => bytes.byteOffset + bytes.length;
  const pieces = [""]; // texts and elements in turn: a part may have many lines, and a browser is slow where each is a text of its own
  lines.forEach((line, i) => {
    const [value, report] = values.find(([each]) => endOf(each) === endOf(line)) ?? [line, { answer: 0 }];
    for (const piece of [i === 0 ? "" : "\n", ...judged(line, report, line.length - value.length)]) {
      if (typeof piece === "string") pieces[pieces.length - 1] += piece;
      else pieces.push(piece, "");
    }
  });
  return pieces;
}

function showBook(name, bytes) {
  state.book = { name, ...readBook(bytes) };
  const { answer, place, rows } = state.book;
  const kept = rows.filter((row) => row.kept).length;
  const bad = rows.find((row) => !row.kept && row.first <= place && place < row.first + row.length);
  if (answer === 0) tell("book-result", `${name}: all good, ${counted(rows.length, "card")}.`, true);
  else {
    const where = bad && bad.label.startsWith("card=") ? `${bad.label}, byte ${place}` : `byte ${place}`;
    const counts = `Kept: ${counted(kept, "card")}, left out: ${counted(rows.length - kept, "part")}.`;
    tell("book-result", `${name}: refused at ${where}: ${refusal(answer)}. ${counts}`, false);
  }
  byId("book-rows").hidden = rows.length === 0;
  byId("book-tools").hidden = false;
  byId("filter").value = "";
  byId("book-rows").tBodies[0].replaceChildren();
  moreRows();
  closeCard();
  if (state.log) state.log.stale = true;
}

// Any bytes may be thousands of parts.
function moreRows() {
  showMore("book", state.book.rows, bookRow);
  filterBook();
}

// A file that is not read leaves none open: nothing of another one stands below its name.
function closeBook() {
  state.book = null;
  byId("book-rows").hidden = byId("book-tools").hidden = byId("book-more").hidden = true;
  byId("book-rows").tBodies[0].replaceChildren();
  closeCard();
  if (state.log) state.log.stale = true;
}

// Which formulas touch the cells that are named: the list of the cells that the text reads is the module's. A text that names none hides nothing. What
// does not compile has no list: it may touch them, and is not hidden.
function filterBook() {
  const text = byId("filter").value, lines = [...byId("book-rows").tBodies[0].rows];
  const wanted = compiled("D0", text), { answer } = wanted.report;
  const cells = new Set(answer === 0 ? touched(wanted).reads : []);
  const found = lines.map((_, i) => (cells.size === 0 ? undefined : touches(state.book.rows[i], cells)));
  lines.forEach((line, i) => (line.hidden = found[i] === false));
  const [count, unasked] = [true, undefined].map((wish) => found.filter((each) => each === wish).length);
  const also = unasked === 0 ? "" : `; ${counted(unasked, "refused part")} could not be asked, shown all the same`;
  if (text === "") tell("filter-result", "");
  else if (cells.size === 0) tell("filter-result", `${text}: ${answer === 0 ? "no cell is named" : refusal(answer)}`, false);
  else tell("filter-result", `${count} of ${lines.length} read or store to ${namesOf([...cells])}${also}.`);
}

// Undefined where the formula cannot be asked.
function touches({ target, expr }, cells) {
  const made = expr && target && compiled(target, expr);
  if (!made || made.aim.answer !== 0 || made.report.answer !== 0) return undefined;
  const { reads, writes } = touched(made);
  return [...reads, ...writes].some((number) => cells.has(number));
}

function saveKept() {
  const link = element("a");
  link.href = URL.createObjectURL(new Blob([state.book.kept]));
  link.download = `kept-${state.book.name}`;
  link.click();
  setTimeout(() => URL.revokeObjectURL(link.href), 60000); // some browsers read it only after the click
}

// ---- a card ----

function listing(code, count) {
  const text = new Uint8Array(LISTING_BYTES);
  const { answer, length } = formulas.listing(code, count, text);
  return answer === 0 ? new TextDecoder().decode(text.subarray(0, length)) : refusal(answer);
}

function formatted(expr) {
  const text = new Uint8Array(TEXT_BYTES);
  const { answer, count } = formulas.format(expr, text);
  return answer === 0 ? shown(text.subarray(0, count)) : `not possible: ${refusal(answer)}`;
}

function openCard(row, opener) {
  const made = compiled(row.target, row.expr);
  const { aim, report } = made;
  const good = aim.answer === 0 && report.answer === 0;
  state.card = { ...made, target: row.target, good, opener };
  const reasons = [["Left out", row.kept ? 0 : row.answer], ["Target refused", aim.answer], ["Expression refused", report.answer]];
  const why = reasons.filter(([, answer]) => answer !== 0).map(([what, answer]) => `${what}: ${refusal(answer)}.`).join(" ");
  tell("card-result", why, why === "");
  byId("card-parts").hidden = false;
  byId("card-title").textContent = `${row.kept ? `Card ${row.label}` : "A part left out"}, into ${shown(row.target)}`;
  byId("card-text").replaceChildren(...judged(row.expr, report));
  byId("card-good").hidden = !good;
  if (good) showCode(row, made);
  chooseTab("card");
  byId("card-title").focus();
}

function showCode(row, made) {
  const { reads } = touched(made);
  byId("card-formatted").textContent = formatted(row.expr);
  byId("card-reads").textContent = `Reads ${reads.length === 0 ? "no cell" : namesOf([...reads])}.`;
  byId("card-code").textContent = listing(made.code, made.report.count);
  byId("card-index-part").hidden = made.aim.count === 0;
  byId("card-index").textContent = made.aim.count > 0 ? listing(made.index, made.aim.count) : "";
  state.card.reads = reads;
  showCells();
}

function showCells() {
  byId("card-cells").tBodies[0].replaceChildren(...Array.from(state.card.reads, cellLine));
  tell("card-stored", "");
  evaluateCard();
}

// The focus goes to the row of the card, or to the tab where the filter hides that.
function backToBook() {
  chooseTab("book");
  byId("tab-book").focus();
  state.card.opener.focus();
}

function closeCard() {
  state.card = null;
  byId("card-parts").hidden = true;
  tell("card-result", "No card is open: choose one in the book.");
}

// A typed value is a formula, worked out and stored into its cell by the module. Inputs (X) are no targets: theirs is a box to tick.
function cellLine(number) {
  const line = element("tr"), input = element("input"), holds = element("td", held(state.memory, number), "bytes");
  input.setAttribute("aria-label", nameOf(number));
  if (bankOf(number) === 0) {
    input.type = "checkbox";
    input.checked = held(state.memory, number) === "1";
  } else Object.assign(input, { size: 12, spellcheck: false, autocomplete: "off" });
  input.addEventListener("change", () => {
    const refused = setCell(number, input);
    holds.textContent = held(state.memory, number) + (refused === 0 ? "" : `; not taken: ${refusal(refused)}`);
    evaluateCard();
  });
  const field = element("td");
  field.append(input);
  line.append(element("td", nameOf(number), "bytes"), field, holds);
  return line;
}

// The answer: 0, or why the value is refused.
function setCell(number, input) {
  const { memory } = state;
  if (input.type === "checkbox") {
    const byte = X + (number >> 3), bit = 1 << number % 8;
    memory[byte] = input.checked ? memory[byte] | bit : memory[byte] & ~bit;
    return 0;
  }
  const tried = memory.slice();
  const { answer } = formulas.compileAndRun(nameOf(number), input.value, tried, new Uint8Array(CODE_BYTES), new Uint8Array(CODE_BYTES), tickGiven());
  if (answer === 0) memory.set(tried);
  return answer;
}

// The tick is typed as a formula too, on a memory of zeros, and what was taken is said where it is not the very text. One that is no integer is not taken.
function tickGiven() {
  const code = new Uint8Array(CODE_BYTES);
  const made = formulas.compile(byId("tick").value, code);
  const report = made.answer === 0 ? formulas.evaluate(code, made.count, new Uint8Array(MEMORY_BYTES)) : made;
  const answer = report.answer === 0 && report.kind !== INTEGER ? BAD_KIND : report.answer;
  byId("tick").setAttribute("aria-invalid", String(answer !== 0));
  const tick = answer === 0 ? report.bits : 0;
  if (answer !== 0) tell("tick-taken", `not taken, the tick is 0: ${refusal(answer)}`, false);
  else tell("tick-taken", byId("tick").value === `${tick}` ? "" : `taken as ${tick}`);
  return tick;
}

function evaluateCard() {
  if (!state.card?.good) return;
  const { code, report } = state.card;
  const { answer, kind, bits, count } = formulas.evaluate(code, report.count, state.memory, tickGiven());
  if (answer !== 0) return tell("card-value", `Fault: ${refusal(answer)}; ${count} instructions and cells begun.`, false);
  const value = kind === REAL ? `real ${single(bits)}` : `integer ${bits | 0} (${pattern(bits)})`;
  tell("card-value", `Value: ${value}; ${count} instructions and cells.`, true);
}

// Just what the box does with the card: run is evaluate, then store, with the flag of a fault.
function storeCard() {
  const { code, report, index, aim, target } = state.card;
  const before = state.memory.slice();
  const into = aim.count > 0 ? BANKS[aim.bank] : target;
  const ran = formulas.run(code, report.count, state.memory, into, index, aim.count, tickGiven());
  const flags = FLAGS.filter(([, at]) => state.memory[at] !== before[at]).map(([name]) => `flag ${name} set`);
  const number = FIRST_NUMBERS[ran.bank] + ran.element;
  const cell = ran.answer === 0 ? [`${nameOf(number)} holds ${held(state.memory, number)}, before it held ${held(before, number)}`] : [refusal(ran.answer)];
  tell("card-stored", `${[...cell, ...flags].join("; ")}${flags.length === 0 ? "; no flag changed" : ""}.`, ran.answer === 0);
  [...byId("card-cells").tBodies[0].rows].forEach((line, i) => (line.cells[2].textContent = held(state.memory, state.card.reads[i])));
  evaluateCard();
}

// ---- the log ----

function replayed(bytes) {
  const memory = new Uint8Array(MEMORY_BYTES), out = new Uint8Array(REPLAY_BYTES), texts = [];
  let at = { at: 0, tick: 0, done: 0, written: 0 };
  while (at.done === 0) {
    at = formulas.replay(state.book.bytes, bytes, memory, out, at);
    texts.push(out.slice(0, at.written));
  }
  return { printed: joined(texts), at: at.at };
}

function joined(texts) {
  const all = new Uint8Array(texts.reduce((sum, text) => sum + text.length, 0));
  let at = 0;
  for (const text of texts) {
    all.set(text, at);
    at += text.length;
  }
  return all;
}

// Where each line that begins with one of the keys starts, and its number.
function linesWith(bytes, keys) {
  const starts = [];
  let number = 1;
  for (let at = 0; at < bytes.length; number++) {
    const end = bytes.indexOf(10, at), next = end === -1 ? bytes.length : end + 1;
    if (keys.some((key) => key.every((b, i) => bytes[at + i] === b))) starts.push([at, next, number]);
    at = next;
  }
  return starts;
}

function lineNumber(bytes, at) {
  let number = 1;
  for (let end = bytes.indexOf(10); end !== -1 && end < at; end = bytes.indexOf(10, end + 1)) number++;
  return number;
}
const RUN = [...new TextEncoder().encode("run=")];
const PRINTED = ["answer=", "unknown="].map((key) => [...new TextEncoder().encode(key)]);

// Each `run=` line that was taken printed a piece, which begins with answer= or unknown=. A bad line, or a refused book, printed the last.
function showLog(name, bytes) {
  closeLog();
  state.log = { name, bytes, runs: [], pieces: [], printed: new Uint8Array(0) };
  if (!state.book) tell("log-result", `${name}: open a book first.`, false);
  else replayLog();
  byId("log-rows").hidden = state.log.pieces.length === 0;
  moreRuns();
}

function closeLog() {
  state.log = null;
  byId("log-bad").hidden = byId("log-rows").hidden = byId("log-more").hidden = true;
  byId("log-rows").tBodies[0].replaceChildren();
}

function replayLog() {
  const { name, bytes } = state.log;
  const { printed, at } = replayed(bytes);
  const pieces = linesWith(printed, PRINTED);
  const last = pieces.length > 0 ? shown(printed.subarray(pieces[pieces.length - 1][0], pieces[pieces.length - 1][1] - 1)) : "";
  const refused = state.book.answer !== 0, bad = !refused && last === `answer=${BAD_LINE}`;
  if (refused || bad) pieces.pop();
  Object.assign(state.log, { runs: linesWith(bytes, [RUN]), pieces, printed });
  if (refused) tell("log-result", `${name}: nothing is replayed, the book is refused: ${refusal(state.book.answer)}.`, false);
  else if (!bad) tell("log-result", `${name}: ${counted(pieces.length, "run")}, read to the end.`, true);
  else {
    const line = splitLines(bytes.subarray(at, at + 2000))[0];
    tell("log-result", `${name}: ${counted(pieces.length, "run")}, then a bad line at byte ${at}: ${refusal(BAD_LINE)}.`, false);
    byId("log-bad").textContent = `bad line, line ${lineNumber(bytes, at)}, byte ${at}: ${shown(line)}`;
    byId("log-bad").hidden = false;
  }
}

function runRow([start], i) {
  const { bytes, runs, pieces, printed } = state.log;
  const [at, next, number] = runs[i];
  const lines = splitLines(printed.subarray(start, pieces[i + 1]?.[0] ?? printed.length)).map(shown);
  const answer = Number(lines[0].replace("answer=", ""));
  const line = element("tr");
  line.append(element("td", `${number}`), cellOf(shown(bytes.subarray(at, next - 1))), cellOf(lines.slice(0, 3).join(" ")));
  line.append(element("td", answer > 0 ? wordsOf(answer) : answer === 0 ? "" : "the book has no such card", "bad"));
  return line;
}

const moreRuns = () => showMore("log", state.log.pieces, runRow);

// ---- files, tabs and keys ----

async function openFile(file, { limit, id, show, close }) {
  const start = performance.now();
  const bytes = file.size > limit ? undefined : await file.arrayBuffer().catch(() => undefined);
  if (bytes) show(file.name, new Uint8Array(bytes));
  else {
    close();
    tell(id, file.size > limit ? `${file.name} has ${file.size} bytes; at most ${limit} are taken. Nothing was read.` : `${file.name} cannot be read.`, false);
  }
  document.body.getBoundingClientRect();
  document.body.dataset.milliseconds = (performance.now() - start).toFixed(1);
  byId("time").textContent = bytes ? `Shown in ${document.body.dataset.milliseconds} ms.` : "";
}

const BOOK = { input: byId("book-file"), limit: BOOK_LIMIT, id: "book-result", show: showBook, close: closeBook };
const LOG = { input: byId("log-file"), limit: LOG_LIMIT, id: "log-result", show: showLog, close: closeLog };
const tabs = ["book", "card", "log"];

function chooseTab(name) {
  for (const each of tabs) {
    byId(`view-${each}`).hidden = each !== name;
    byId(`tab-${each}`).setAttribute("aria-selected", String(each === name));
    byId(`tab-${each}`).tabIndex = each === name ? 0 : -1;
  }
  state.tab = name;
  if (name === "log" && state.log?.stale) showLog(state.log.name, state.log.bytes);
}

function turnTab(event) {
  const step = { ArrowRight: 1, ArrowLeft: 2 }[event.key];
  if (step === undefined) return;
  chooseTab(tabs[(tabs.indexOf(state.tab) + step) % 3]);
  byId(`tab-${state.tab}`).focus();
}

for (const name of tabs) {
  byId(`tab-${name}`).addEventListener("click", () => chooseTab(name));
  byId(`tab-${name}`).addEventListener("keydown", turnTab);
}
chooseTab("book");
for (const kind of [BOOK, LOG]) {
  kind.input.addEventListener("click", () => (kind.input.value = "")); // the same file can be chosen again
  kind.input.addEventListener("change", () => kind.input.files[0] && openFile(kind.input.files[0], kind));
}
byId("filter").addEventListener("input", filterBook);
byId("save-kept").addEventListener("click", saveKept);
byId("tick").addEventListener("change", evaluateCard);
byId("store").addEventListener("click", storeCard);
byId("back").addEventListener("click", backToBook);
byId("clear").addEventListener("click", () => {
  state.memory.fill(0);
  showCells();
});
byId("book-more").addEventListener("click", moreRows);
byId("log-more").addEventListener("click", moreRuns);
addEventListener("dragover", (event) => {
  event.preventDefault();
  document.body.classList.add("over");
});
addEventListener("dragleave", () => document.body.classList.remove("over"));
addEventListener("drop", (event) => {
  event.preventDefault();
  document.body.classList.remove("over");
  const file = event.dataTransfer.files[0];
  if (!file) return;
  if (state.tab === "card") chooseTab("book");
  const kind = state.tab === "log" ? LOG : BOOK;
  kind.input.files = event.dataTransfer.files; // its name stands there as if it had been chosen
  openFile(file, kind);
});
tell("book-result", "No book is open.");
document.body.dataset.ready = "1";

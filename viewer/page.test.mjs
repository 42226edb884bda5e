// The page in chromium, from the disk, against the native programs: node viewer/page.test.mjs FOLDER [PICTURES]
import { spawnSync } from "node:child_process";
import { existsSync, mkdirSync, readFileSync, writeFileSync } from "node:fs";
import { pathToFileURL } from "node:url";
import { open } from "./browser.mjs";
import { nativeValues, SINGLES, there as nativeThere, TYPED, VALUES } from "./values.mjs";

const [folder, pictures] = process.argv.slice(2);
const library = await import(pathToFileURL(`${folder}/formula.mjs`));
const formulas = await library.load(readFileSync(`${folder}/formula.wasm`));
const scratch = `${process.cwd()}/target/viewer`;
mkdirSync(scratch, { recursive: true });

let failed = 0, compared = 0;
function same(what, found, expected) {
  compared++;
  if (JSON.stringify(found) === JSON.stringify(expected)) return;
  console.log(`${what}: ${JSON.stringify(found)}, expected ${JSON.stringify(expected)}`);
  failed++;
}

// ---- the native programs ----

// ./formula would prove and build a missing program without a word: viewer/test.sh has built them.
function native(program, input, ...words) {
  if (!existsSync(`target/bin/${program}`)) throw new Error(`target/bin/${program} is missing: sh viewer/test.sh builds it`);
  const { status, stdout, stderr } = spawnSync("./formula", [program, ...words], { input, maxBuffer: 1 << 28 });
  if (status !== 0) throw new Error(`${program}: ${stderr}`);
  return { out: stdout, err: stderr.toString("latin1") };
}
const lines = (bytes) => bytes.toString("latin1").replace(/\n$/, "").split("\n");
const valuesOf = (text, key) => lines(Buffer.from(text, "latin1")).filter((line) => line.startsWith(key)).map((line) => line.slice(key.length));

// ---- files ----

function bookOf(cards) {
  const texts = Buffer.from(cards.map(([, target, expr]) => target + expr).join(""), "latin1");
  let at = 0;
  const words = cards.flatMap(([number, target, expr]) => {
    const row = [number, at, target.length, at + target.length, expr.length];
    at += target.length + expr.length;
    return row;
  });
  const out = new Uint8Array(library.CARDS_BYTES);
  const { answer, length } = formulas.cardsWrite(texts, Uint32Array.from(words), out);
  if (answer !== 0) throw new Error(`cardsWrite answers ${answer}`);
  return Buffer.from(out.subarray(0, length));
}
const CARDS = [
  [1, "R0", "(D1 + 2) / 4.0"],
  [2, "D[V10 + 32]", "SUMR(D0, 10)"],
  [4, "D17", "IF(X3, D16, N2) * 2"],
  [7, "C3", "SINCE(D40) >= 1500"],
  [9, "D1", "D17 / V0 + -D[V1]"],
];
const good = bookOf(CARDS);
const spoil = (text) => text.replace("SUMR(D0, 10)", "SUMR(D0, 70)").replace("expr=SINCE(D40) >= 1500\ncheck=34355", "expr=SINCE(D40) >= R1 &\ncheck=00000");
const damaged = Buffer.from(`before\n${spoil(good.toString("latin1"))}card=3\ntarget=D0\nexpr=\r1 \xE4\ncheck=1\n`, "latin1");
// The cards that are left out of it; what stands before the first card is none.
const DAMAGED = [["D[V10 + 32]", "SUMR(D0, 70)"], ["C3", "SINCE(D40) >= R1 &"], ["D0", "\r1 \xE4"]];
const largest = bookOf(Array.from({ length: 64 }, (_, i) => [i + 1, `D${i}`, "D1+".repeat(341) + "7"]));
const night = Buffer.from("D1=1000\ntick=0xFFFFFF00\nrun=1\nD40=-256\nX3=1\nD16=21\nrun=4\ntick=0x000004DC\nrun=7\nrun=12\nrun=9\nrun=2\n", "latin1");
const FILES = {
  good, damaged, largest, night,
  empty: Buffer.alloc(0),
  short: Buffer.from("card=1\ntarget=D0\nexpr=1\n"),
  zeros: Buffer.alloc(262144),
  "line-ends": Buffer.alloc(262144, 10),
  bytes: Buffer.from(Array.from({ length: 60000 }, (_, i) => (i * 7919 + (i >> 5) * 31) % 256)),
  openers: Buffer.from("card=\n".repeat(30000)),
  "over-book": Buffer.alloc(262145, 65),
  "full-log": Buffer.alloc(16 * 1024 * 1024, "D1=1\n"),
  "over-log": Buffer.alloc(16 * 1024 * 1024 + 1, 65),
  "bad-night": Buffer.concat([night, Buffer.from("D1=01\nrun=1\n")]),
  "cut-night": Buffer.concat([night, Buffer.from("run=1")]),
  "long-night": Buffer.from("run=4\n".repeat(3000)),
  values: bookOf(VALUES.map(({ target, expr }, i) => [i + 1, target, expr])),
  singles: bookOf([[1, "R0", "R1"]]),
};

// Every kind of refusal of a formula: at the front, in the middle, behind the last byte, beside bytes that are not shown as they are, far down the line.
const REFUSED = [
  ...["5 $ 3", "D1 = 7", ".5", "\t\t1 +\t\x01", "1 + \xE4\xF6", "\xFF", "\xC3\xA4 + 1", "D1 \0", "1 \x7F", "\\x41", "1 + \\", "1\r", "2147483648"],
  ...["1 + 0x123456789", "123456789.5", "1 + SIN(2)", "D256", "SUMR(D0, 0)", "1 2", "(1 + 2", "1 + ", "1 +\t", " ", "TICKms", "((((((((D[1]))))))))"],
  ...["1.5 & 2", "0 && SINCE(R1)", `${"D1+".repeat(300)}$`, "D1+".repeat(341), `${"D1+".repeat(341)}-`, `${"D1 + ".repeat(150)}~1.5`],
  ...[`${"\t".repeat(100)}D1 D2`, `${"1+".repeat(11)}$${"+1".repeat(400)}`, "", "1".repeat(1025)],
].map((expr) => ["D0", expr]);
REFUSED.push(["X0", "1"], ["D[1 +]", "1"], ["D999", "1 +"], ["D\xE4", "\xE4"]);
const LONG = REFUSED.findIndex(([, expr]) => expr.length === 1023);
const checkOf = (text) => [...Buffer.from(text, "latin1")].reduce((sum, byte, i) => (sum + (i + 1) * byte) % 65521, 0);
function refusedCard([target, expr], number) {
  const body = `target=${target}\nexpr=${expr}\n`;
  return `card=${number}\n${body}check=${`${checkOf(body)}`.padStart(5, "0")}\n`;
}
FILES.refused = Buffer.from(REFUSED.map((card, i) => refusedCard(card, i + 1)).join(""), "latin1");
// A book that ends in its expression, and one whose card is followed by a line that is none of its own.
FILES["cut-book"] = Buffer.from("card=1\ntarget=D0\nexpr=1 +", "latin1");
FILES["stray-line"] = Buffer.concat([good, Buffer.from("stray\n")]);
for (const [name, bytes] of Object.entries(FILES)) writeFileSync(`${scratch}/${name}`, bytes);

// ---- the page ----

const browser = await open(1200, 900);
const text = (id) => browser.run("return document.getElementById(arguments[0]).textContent", id);
const tableRows = (id) =>
  browser.run(
    "return [...document.getElementById(arguments[0]).tBodies[0].rows].filter((row) => !row.hidden)" +
      ".map((row) => [row.className, ...[...row.cells].map((cell) => cell.textContent)])",
    id,
  );
const click = (id) => browser.run("document.getElementById(arguments[0]).click()", id);
async function give(what, name) {
  // The driver hands the file over without the click that a hand would make.
  await browser.run("delete document.body.dataset.milliseconds; document.getElementById(`${arguments[0]}-file`).value = ''", what);
  await browser.run("for (const tab of ['book', 'log']) document.getElementById(`view-${tab}`).hidden = tab !== arguments[0]", what);
  await browser.keys(`#${what}-file`, `${scratch}/${name}`);
  await browser.until(`${name} is shown`, "return document.body.dataset.milliseconds !== undefined");
}
async function load() {
  await browser.go(pathToFileURL("viewer/formula.html").href);
  await browser.until("the module runs", "return document.body.dataset.ready === '1'");
}

async function testGood() {
  await give("book", "good");
  const [count] = valuesOf(native("cards", good).out.toString(), "cards=");
  same("the first line", (await text("book-result")).endsWith(`all good, ${count} cards.`), true);
  same("rows", await tableRows("book-rows"), CARDS.map(([number, target, expr]) => ["", `${number}`, target, expr, "good"]));
}

async function testDamaged() {
  await give("book", "damaged");
  const cards = native("cards", damaged).out.toString();
  const { out: kept, err } = native("salvage", damaged);
  const [firsts, lengths, answers] = ["first=", "length=", "answer="].map((key) => valuesOf(err, key).map(Number));
  const line = await text("book-result");
  const [answer, place, words] = ["answer=", "place=", "words="].map((key) => valuesOf(cards, key)[0]);
  same("the answer and its words", line.includes(`byte ${place}: answer ${answer}, ${words}`), true);
  const rows = await tableRows("book-rows");
  const keptRows = rows.filter(([left]) => left === "");
  const keptText = kept.toString("latin1");
  const [numbers, targets, exprs] = ["card=", "target=", "expr="].map((key) => valuesOf(keptText, key));
  same("kept cards", keptRows.map((row) => row.slice(1, 4)), numbers.map((number, i) => [number, targets[i], exprs[i]]));
  const left = rows.filter(([left]) => left !== "");
  const spans = left.map((row) => row[1].match(/bytes (\d+) to (\d+)/).slice(1).map(Number));
  same("parts left out", spans, firsts.map((first, i) => [first, first + lengths[i] - 1]));
  same("their answers", left.map((row) => Number(row[3].match(/answer (\d+)/)[1])), answers);
  const order = rows.map((row) => (row[0] === "" ? row[1] : "-")).join(" ");
  same("in the file's order", order, "- 1 - 4 - 9 -");
  await testSave(kept);
}

async function testSave(kept) {
  await browser.run(
    "const make = URL.createObjectURL;" +
      "URL.createObjectURL = (blob) => (blob.arrayBuffer().then((bytes) => (window.saved = [...new Uint8Array(bytes)])), make(blob))",
  );
  await browser.click("#save-kept");
  await browser.until("the kept cards are saved", "return window.saved !== undefined");
  same("the saved file", Buffer.compare(Buffer.from(await browser.run("return window.saved")), kept), 0);
}

async function filter(cell) {
  await browser.run("const f = document.getElementById('filter'); f.value = ''; f.dispatchEvent(new Event('input'))");
  await browser.keys("#filter", cell);
}

async function testFilter() {
  await give("book", "good");
  for (const [cell, cards] of [["D17", ["2", "4", "9"]], ["V10", ["2"]], ["X3", ["4"]], ["R0", ["1"]], ["C9", []], ["D300", ["1", "2", "4", "7", "9"]]]) {
    await filter(cell);
    same(`formulas that touch ${cell}`, (await tableRows("book-rows")).map((row) => row[1]), cards);
  }
  same("a filter that is no cell", (await text("filter-result")).includes("answer 6"), true);
  await filter("5 + 3");
  same("a filter without a cell", [await text("filter-result"), (await tableRows("book-rows")).length], ["5 + 3: no cell is named", 5]);
  await filter("D17");
  for (const [width, media] of [[1200, "screen"], [360, "screen"], [720, "print"]]) {
    await browser.size(width, 900);
    await browser.media(media);
    const seen = "return [...document.querySelectorAll('#book-rows tbody tr')].filter((row) => row.getBoundingClientRect().height > 0).length";
    same(`rows seen, ${width} pixels`, await browser.run(seen), 3);
    same(`the filter is said, ${width} pixels`, await browser.run("return document.getElementById('filter-result').getBoundingClientRect().height > 0"), true);
  }
  await browser.media("screen");
  await browser.size(1200, 900);
}

// What does not compile may touch any cell: it stays, and how many such parts there are is said. Card 2, left out for its check, is asked.
async function testUnasked() {
  await give("book", "damaged");
  for (const [cell, rows, count] of [["D17", "- - 4 - 9 -", 3], ["V10", "- - - -", 1], ["R0", "- 1 - -", 1], ["C9", "- - -", 0]]) {
    await filter(cell);
    const found = (await tableRows("book-rows")).map(([left, label]) => (left === "" ? label : "-")).join(" ");
    const said = `${count} of 7 read or store to ${cell}; 3 refused parts could not be asked, shown all the same.`;
    same(`touched or not asked, ${cell}`, [found, await text("filter-result")], [rows, said]);
  }
}

// More rows than are shown at once: those that follow come on demand, and paper says how many there are.
async function testMore() {
  for (const [view, name, all] of [["book", "openers", 30000], ["log", "long-night", 3000]]) {
    await give(view, name);
    await click(`${view}-more`);
    await browser.media("print");
    const [rows, height] = await browser.run(
      "return [document.getElementById(`${arguments[0]}-rows`).tBodies[0].rows.length, document.getElementById(`${arguments[0]}-more`).offsetHeight]", view,
    );
    same(`more of ${name}`, [rows, height > 0, await text(`${view}-more`)], [1000, true, `Show more: 1000 of ${all} are shown`]);
    await browser.media("screen");
    await give("book", "good");
  }
}

// ---- the byte of a refusal ----

// Of each text: what stands in the marked line before, in and behind the mark, the words below it, and where the mark and its caret are drawn.
const readMarks = (css) =>
  browser.run(
    `const overlap = (box, other) => box.left < other.right && other.left < box.right && box.top < other.bottom && other.top < box.bottom;
    const boxes = (text) => { const range = document.createRange(); range.selectNodeContents(text); return [...range.getClientRects()]; };
    return [...document.querySelectorAll(arguments[0])].map((text) => {
      const words = [...text.querySelectorAll(".bad")].map((each) => each.textContent), mark = text.querySelector("mark");
      if (!mark) return { words };
      const [byte, caret] = ["u", ".caret"].map((each) => mark.querySelector(each).getBoundingClientRect());
      const ink = { left: caret.left, right: caret.right, top: caret.top + caret.height * 0.15, bottom: caret.top + caret.height / 2 };
      const before = document.createRange(), after = document.createRange();
      before.setStart(text, 0); before.setEndBefore(mark);
      after.selectNodeContents(text); after.setStartAfter(mark);
      const others = [...text.childNodes].filter((each) => each !== mark).flatMap(boxes);
      return {
        words, before: before.toString().split("\\n").pop(), byte: mark.querySelector("u").textContent, after: after.toString().split("\\n")[0],
        below: caret.left >= byte.left - 1 && caret.right <= byte.right + 1 && ink.top > byte.bottom && ink.top < byte.bottom + 9,
        clear: !others.some((box) => overlap(ink, box)),
        inside: byte.left >= 0 && byte.right <= innerWidth && caret.width > 3,
        lines: new Set(others.map((box) => Math.round(box.top))).size,
      };
    });`,
    css,
  );
const bytesOf = (shown) => shown.replace(/\\x([0-9A-F]{2})/g, (_, digits) => String.fromCharCode(parseInt(digits, 16)));

function refusedBy(target, expr) {
  const printed = native("listing", Buffer.from(`target=${target}\nexpr=${expr}\n`, "latin1")).out.toString("latin1");
  const [answer, place, words] = ["answer=", "place=", "words="].map((name) => valuesOf(printed, name)[0]);
  return { answer, place, words };
}

// What stands there against the answer, the place and the words that the program `listing` prints for the same formula.
function sameMark(where, mark, key, [target, expr]) {
  const { answer, place, words } = refusedBy(target, expr);
  const what = `${where}: ${JSON.stringify(expr.slice(0, 40))} into ${target}`;
  if (answer === undefined) return same(`no mark of ${what}`, mark.before, undefined);
  same(`words of ${what}`, mark.words.some((line) => line.startsWith(`answer ${answer}, ${words}`)), true);
  if (answer === "2") return sameMark(where, mark, key, ["D0", expr]);
  if (answer === "3") return same(`no mark of ${what}`, mark.before, undefined);
  const end = expr.length === Number(place);
  same(`words of ${what}`, mark.words.includes(`answer ${answer}, ${words}, at ${end ? "its end, " : ""}byte ${place}`), true);
  same(`place of ${what}`, bytesOf(mark.before), key + expr.slice(0, Number(place)));
  same(`byte of ${what}`, bytesOf(mark.byte), expr.charAt(Number(place)));
  same(`bytes behind ${what}`, bytesOf(mark.after), expr.slice(Number(place) + 1));
  same(`caret of ${what}`, [mark.below, mark.clear, mark.inside], [true, true, true]);
}

async function testMarks() {
  for (const [name, width, media] of [["phone", 360, "screen"], ["desk", 1200, "screen"], ["paper", 720, "print"]]) {
    await give("book", "refused");
    await browser.size(width, 900);
    await browser.media(media);
    const marks = await readMarks("#book-rows .left-out pre:not(:empty)");
    same(`refused cards, ${name}`, marks.length, REFUSED.length);
    marks.forEach((mark, i) => sameMark(name, mark, "expr=", REFUSED[i]));
    same(`an expression breaks, ${name}`, marks[LONG].lines > 5, true);
    for (let i = 0; i < REFUSED.length; i++) {
      await browser.run("document.querySelectorAll('#book-rows button')[arguments[0]].click()", i);
      const [mark] = await readMarks("#card-text");
      if (REFUSED[i][0] === "D0") sameMark(`${name}, opened`, mark, "", REFUSED[i]);
      const closed = await browser.run("return [document.getElementById('card-good').hidden, document.activeElement.id]");
      same(`nothing to store, ${name}`, closed, [true, "card-title"]);
    }
  }
  await browser.media("screen");
  await browser.size(1200, 900);
  await testEnds();
}

// The refusals of a whole file; what is read aloud; and that what is copied has the file's bytes alone.
async function testEnds() {
  await give("book", "cut-book");
  const [cut] = await readMarks("#book-rows .left-out pre:not(:empty)");
  sameMark("a cut book", cut, "expr=", ["D0", "1 +"]);
  const { nodes } = await browser.tool("Accessibility.getFullAXTree");
  const said = nodes.filter(({ ignored, role }) => !ignored && role.value === "StaticText").map(({ name }) => name.value);
  same("read aloud", [said.some((text) => text.startsWith("refused here, at the end")), said.includes("^")], [true, false]);
  await browser.run("getSelection().selectAllChildren(document.querySelector('#book-rows .left-out pre:not(:empty)'))");
  same("copied", await browser.run("return getSelection().toString()"), "card=1\ntarget=D0\nexpr=1 +\nanswer 7, not in the grammar, at its end, byte 3");
  await give("book", "stray-line");
  const place = valuesOf(native("cards", FILES["stray-line"]).out.toString(), "place=")[0];
  same("a stray line", (await text("book-result")).includes(`refused at card=9, byte ${place}: answer 16, `), true);
}

// ---- a card ----

async function openCard(name, row) {
  await give("book", name);
  await browser.run("document.getElementById('book-rows').tBodies[0].rows[arguments[0]].querySelector('button').click()", row);
}

// An opened part says why it is left out, by the answer that salvage prints, and then what `listing` refuses of its target and of its expression.
async function testLeftOut() {
  for (const [name, cards] of [["damaged", DAMAGED], ["refused", REFUSED]]) {
    await give("book", name);
    const answers = valuesOf(native("salvage", FILES[name]).err, "answer=");
    for (const [i, [target, expr]] of cards.entries()) {
      const part = i + answers.length - cards.length;
      const found = await browser.run(
        "document.querySelectorAll('#book-rows .left-out')[arguments[0]].querySelector('button').click();" +
          "return document.getElementById('card-result').textContent",
        part,
      );
      const refused = [["Left out", answers[part]], ["Target refused", refusedBy(target, "1").answer], ["Expression refused", refusedBy("D0", expr).answer]];
      const said = refused.filter(([, answer]) => answer).map(([what, answer]) => `${what}: answer ${answer}, ${WORDS.get(answer)}.`);
      same(`why part ${part} of ${name} is left out`, found, said.join(" "));
    }
  }
}

// What is set, what evaluate gives and what is stored, beside the program `formula` on the same case.
async function testCard(row, cells) {
  const [number, target, expr] = CARDS[row];
  await openCard("good", row);
  await click("clear");
  const input = `${Object.entries(cells).map(([cell, value]) => `${cell}=${value}\n`).join("")}target=${target}\nexpr=${expr}\n`;
  for (const [cell, value] of Object.entries(cells)) {
    await browser.run(
      "const field = document.querySelector(`[aria-label=${arguments[0]}]`);" +
        "if (field.type === 'checkbox') field.checked = arguments[1] === 1; else field.value = arguments[1];" +
        "field.dispatchEvent(new Event('change'))",
      cell, value,
    );
  }
  const names = await browser.run("return [...document.getElementById('card-cells').tBodies[0].rows].map((row) => row.cells[0].textContent).join(' ')");
  same(`cells of card ${number}`, names, lines(native("cells", input).out).join(" "));
  const [code, index] = [await text("card-code"), await text("card-index")];
  const listed = native("listing", input).out.toString("latin1");
  same(`listing of card ${number}`, code + (index === "" ? "" : `index=${target[0]}\n${index}`), listed);
  const saved = valuesOf(native("format", input).out.toString("latin1"), "expr=")[0];
  same(`card ${number} with parentheses`, await text("card-formatted"), saved);
  same(`nothing is stored before`, await text("card-stored"), "");
  await click("store");
  const replied = lines(native("formula", input).out);
  const stored = await text("card-stored");
  const line = stored.split(",")[0].replace(/^(\w+) holds (.*)$/, (_, cell, value) => `${cell}=${value.match(/0x\w+/)?.[0] ?? value}`);
  if (replied[0] === "answer=0") same(`card ${number} stored`, line, replied[2]);
  else same(`fault of card ${number}`, stored.includes(`answer ${replied[0].slice(7)}, `) && stored.includes("flag"), true);
  return stored;
}

// What stands on the page when the cells and the tick are typed, and when "Store" is pressed, against the native library.
const tryCase = (row, { cells, tick }) =>
  browser.run(
    `const byId = (id) => document.getElementById(id);
    const put = (field, value) => {
      if (field.type === "checkbox") field.checked = value === "1"; else field.value = value;
      field.dispatchEvent(new Event("change"));
    };
    byId("book-rows").tBodies[0].rows[arguments[0]].querySelector("button").click();
    byId("clear").click();
    put(byId("tick"), arguments[2]);
    for (const [cell, value] of arguments[1]) put(document.querySelector("[aria-label=" + cell + "]"), value);
    const holds = [...byId("card-cells").tBodies[0].rows].map((row) => row.cells[2].textContent).join(" | ");
    const shown = { value: byId("card-value").textContent, before: byId("card-stored").textContent, tick: byId("tick-taken").textContent, holds };
    byId("store").click();
    return { ...shown, stored: byId("card-stored").textContent };`,
    row, Object.entries(cells), tick,
  );
const expectedValue = ({ answer, words, kind, value, count }) =>
  answer === 0
    ? `Value: ${kind === library.REAL ? "real" : "integer"} ${value}; ${count} instructions and cells.`
    : `Fault: answer ${answer}, ${words}; ${count} instructions and cells begun.`;
const expectedStored = ({ answer, words, cell, holds, before, flags }) =>
  `${answer === 0 ? `${cell} holds ${holds}, before it held ${before}` : `answer ${answer}, ${words}`}${flags || "; no flag changed"}.`;

const takenAs = (tick) => (tick === `${Number(tick)}` ? "" : `taken as ${Number(tick)}`);

async function testValues() {
  if (!nativeThere()) return console.log("target/viewer/evaluate is missing: the values shown are compared with nothing");
  await give("book", "values");
  const native = nativeValues(VALUES);
  for (const [i, given] of VALUES.entries()) {
    const found = await tryCase(i, given), what = `${given.expr} into ${given.target}`;
    same(`value of ${what}`, found.value, expectedValue(native[i]));
    same(`nothing is stored before, ${what}`, [found.before, found.tick], ["", takenAs(given.tick)]);
    same(`stored by ${what}`, found.stored, expectedStored(native[i].stored));
    same(`cells not taken, ${what}`, found.holds.match(/(?<=not taken: answer )\d+/g)?.pop() ?? "0", `${native[i].set}`);
  }
  console.log(`${VALUES.length} values and stores as the native library gives them`);
  await testSingles();
  await testTick();
}

async function testSingles() {
  await openCard("singles", 0);
  const found = await browser.run(
    `const field = document.querySelector("[aria-label=R1]"), holds = field.closest("tr").cells[2], value = document.getElementById("card-value");
    return arguments[0].map((text) => {
      field.value = text;
      field.dispatchEvent(new Event("change"));
      return [holds.textContent, value.textContent];
    });`,
    SINGLES,
  );
  nativeValues(TYPED).forEach((given, i) => same(`${SINGLES[i]} typed`, found[i], [given.value, expectedValue(given)]));
  console.log(`${SINGLES.length} singles typed: decimals and patterns as the C library and the native library give them`);
}

// A tick that is no integer is said not to be taken, and of another text than a decimal what was taken; clearing the memory clears what the fields show
// too.
async function testTick() {
  await openCard("good", 2);
  const refused = [["4294967296", "5"], ["1.5", "9"], ["", "3"], ["1 / 0", "11"]].map(([tick, answer]) => [
    tick, `not taken, the tick is 0: answer ${answer}, ${WORDS.get(answer)}`, "true",
  ]);
  const taken = [["0xFFFFFFFF", takenAs("0xFFFFFFFF")], ["D1", "taken as 0"], ["TICKms() + 9", "taken as 9"], ["9", ""]].map((each) => [...each, "false"]);
  for (const [tick, ...said] of [...refused, ...taken]) {
    const found = await browser.run(
      "const f = document.getElementById('tick'); f.value = arguments[0]; f.dispatchEvent(new Event('change'));" +
        "return [document.getElementById('tick-taken').textContent, f.getAttribute('aria-invalid')]",
      tick,
    );
    same(`tick ${tick}`, found, said);
  }
  await testCard(2, { X3: 1, D16: 21, N2: 5 });
  await click("clear");
  const fields = "return [...document.querySelectorAll('#card-cells input')].map((field) => (field.type === 'checkbox' ? field.checked : field.value))";
  same("cleared fields", [await browser.run(fields), await text("card-stored")], [[false, "", ""], ""]);
}

// ---- the log ----

// The words of an answer, but for those of a run that is done.
const WORDS = new Map([...readFileSync("docs/ANSWERS.md", "utf8").matchAll(/^\| (\d+) \| (.*) \|$/gm)].map(([, answer, words]) => [answer, words]));
WORDS.set("0", "");

async function testLog(name) {
  await give("book", "good");
  await give("log", name);
  const printed = native("replay", readFileSync(`${scratch}/${name}`), `${scratch}/good`).out.toString("latin1");
  const pieces = printed.split(/^(?=answer=|unknown=)/m).filter((piece) => piece !== "").map((piece) => piece.trim().split("\n").join(" "));
  const bad = pieces.length > 0 && pieces[pieces.length - 1].startsWith("answer=16");
  const rows = await tableRows("log-rows"), runs = (bad ? pieces.slice(0, -1) : pieces).slice(0, 500);
  same(`runs of ${name}`, rows.map((row) => row[3]), runs);
  same(`words of ${name}`, rows.map((row) => row[4]), runs.map((run) => WORDS.get(/^answer=(\d+)/.exec(run)?.[1]) ?? "the book has no such card"));
  const line = await text("log-result");
  if (bad) same(`the bad line of ${name}`, line.includes(`at byte ${pieces[pieces.length - 1].match(/place=(\d+)/)[1]}`), true);
  else same(`the end of ${name}`, line.includes("read to the end"), true);
}

// Another book beside the same log: the replay is that of the new book.
async function testStale() {
  await give("book", "good");
  await give("log", "night");
  await give("book", "damaged");
  await click("tab-log");
  same("a log beside a refused book", (await text("log-result")).includes("nothing is replayed"), true);
  same("its rows", await tableRows("log-rows"), []);
}

async function testBadInput() {
  for (const name of ["empty", "short", "zeros", "line-ends", "bytes", "openers", "over-book"]) {
    await give("book", name);
    if (name === "over-book") same("over the limit", [(await text("book-result")).includes("at most 262144"), await tableRows("book-rows")], [true, []]);
    else same(`${name} as a book`, await text("book-result").then((line) => /all good|refused/.test(line)), true);
    await give("log", "night");
  }
  await give("book", "good");
  for (const name of ["empty", "zeros", "bytes", "good", "full-log", "over-log"]) await give("log", name);
  same("over the limit of a log", [(await text("log-result")).includes("at most 16777216"), await tableRows("log-rows")], [true, []]);
}

// Files with a few bytes changed, cut or put in, as a book and as a log: the first line is that of the program `cards`.
async function testSpoiled() {
  let seed = 45;
  const below = (n) => (seed = (seed * 48271) % 2147483647) % n;
  for (let i = 0; i < 60; i++) {
    const whole = [good, damaged, FILES.refused, night][i % 4], at = below(whole.length);
    const piece = Buffer.from(Array.from({ length: below(4) }, () => below(256)));
    const spoiled = Buffer.concat([whole.subarray(0, at), piece, whole.subarray(at + below(3)), i % 5 === 0 ? whole : Buffer.alloc(0)]);
    for (const view of ["log", "book"]) await drop(view, spoiled);
    const [answer, place] = ["answer=", "place="].map((key) => valuesOf(native("cards", spoiled).out.toString("latin1"), key)[0]);
    const line = await text("book-result");
    same(`spoiled file ${i}`, line.includes(answer === "0" ? "all good" : `byte ${place}: answer ${answer}, `), true);
  }
}

// A file that is dropped on a view; the milliseconds until a frame with it was drawn.
async function drop(view, bytes) {
  await click(`tab-${view}`);
  return browser.run(
    `const data = new DataTransfer(), bytes = Uint8Array.from(atob(arguments[0]), (letter) => letter.charCodeAt(0));
    data.items.add(new File([bytes], "dropped"));
    delete document.body.dataset.milliseconds;
    return new Promise((done) => {
      const start = performance.now();
      new MutationObserver((_, observer) => {
        observer.disconnect();
        requestAnimationFrame(() => setTimeout(() => done(performance.now() - start)));
      }).observe(document.body, { attributeFilter: ["data-milliseconds"] });
      document.body.dispatchEvent(new DragEvent("drop", { dataTransfer: data, bubbles: true, cancelable: true }));
    });`,
    bytes.toString("base64"),
  );
}

async function testTime() {
  const times = [], drawn = [];
  for (let i = 0; i < 7; i++) {
    await load();
    drawn.push(await drop("book", largest));
    times.push(Number(await browser.run("return document.body.dataset.milliseconds")));
  }
  same("rows of the largest book", (await tableRows("book-rows")).length, 64);
  for (const each of [times, drawn]) each.sort((a, b) => a - b);
  const [shown, seen] = [times, drawn].map((each) => `${each[3].toFixed(1)} ms (${each[0].toFixed(1)} to ${each[6].toFixed(1)})`);
  console.log(`64 cards of 1,024 bytes: shown in ${shown}, drawn ${seen} after the drop`);
  same("within 100 ms, on a machine that may have other work", drawn[0] <= 100, true);
}

// A file that is dropped comes the same way, also on the card, which it closes.
async function testDrop() {
  await openCard("good", 2);
  await drop("card", good);
  const hidden = await browser.run("return ['view-book', 'card-parts'].map((id) => document.getElementById(id).hidden)");
  same("the dropped book", await text("book-result"), "dropped: all good, 5 cards.");
  same("its name", await browser.run("return document.getElementById('book-file').files[0].name"), "dropped");
  same("no card", [await text("card-result"), ...hidden], ["No card is open: choose one in the book.", false, true]);
}

const TAB = "\uE004", ENTER = "\uE007", SPACE = " ", LEFT = "\uE012", RIGHT = "\uE014";
const focused = () => browser.run("const { id, ariaLabel } = document.activeElement; return id || ariaLabel");
async function tabTo(name) {
  for (let i = 0; i < 20 && (await focused()) !== name; i++) await browser.press(TAB);
  same("reached by the keyboard", await focused(), name);
}

// The whole way by keys alone: a card is opened, filled in, and stored.
async function testKeys() {
  await load();
  await give("book", "good");
  await browser.run("document.getElementById('tab-book').focus()");
  await browser.press(RIGHT);
  same("the right arrow", [await focused(), await browser.run("return document.getElementById('view-card').hidden")], ["tab-card", false]);
  await browser.press(LEFT);
  same("the left arrow", [await focused(), await browser.run("return document.getElementById('view-book').hidden")], ["tab-book", false]);
  for (const name of ["book-file", "filter", "save-kept", "4, open the card"]) await tabTo(name);
  await browser.press(ENTER);
  same("the card is open", [await text("card-title"), await focused()], ["Card 4, into D17", "card-title"]);
  await tabTo("back");
  await browser.press(ENTER);
  same("back at the row", [await focused(), await browser.run("return document.getElementById('view-book').hidden")], ["4, open the card", false]);
  await browser.press(ENTER);
  await tabTo("X3");
  await browser.press(SPACE);
  await tabTo("D16");
  await browser.press("2", "1");
  await tabTo("store");
  await browser.press(ENTER);
  same("stored by the keyboard", await text("card-stored"), "D17 holds 42, before it held 0; no flag changed.");
  await click("tab-book");
  await filter("R0");
  await click("tab-card");
  await click("back");
  same("back, and the row is hidden", await focused(), "tab-book");
}

// No text below 4.5 to 1, by the colours that the browser uses.
async function testContrast() {
  await give("book", "good");
  await give("log", "bad-night");
  await openCard("refused", 3);
  const pairs = await browser.run(`
    const colour = (text) => text.match(/[0-9.]+/g).map(Number);
    const linear = (c) => (c <= 0.03928 ? c / 12.92 : ((c + 0.055) / 1.055) ** 2.4);
    const light = ([r, g, b]) => 0.2126 * linear(r / 255) + 0.7152 * linear(g / 255) + 0.0722 * linear(b / 255);
    const behind = (node) => {
      for (; node; node = node.parentElement) {
        const c = colour(getComputedStyle(node).backgroundColor);
        if (c.length === 3 || c[3] > 0) return c;
      }
      return [255, 255, 255];
    };
    const hasText = (node) => [...node.childNodes].some((child) => child.nodeType === 3 && child.data.trim() !== "");
    const pair = (node, part) => {
      const [a, b] = [light(colour(getComputedStyle(node, part).color)), light(behind(node))];
      return [node.tagName + "." + node.className, (Math.max(a, b) + 0.05) / (Math.min(a, b) + 0.05)];
    };
    const fields = [...document.querySelectorAll("input")];
    const texts = [...document.querySelectorAll("body *")].filter(hasText);
    return [...texts.map((node) => pair(node)), ...fields.map((node) => pair(node)), ...fields.map((node) => pair(node, "::placeholder"))];`);
  const coloured = ["mark u", ".caret", ".bad", ".good", ".left-out", "#log-rows td", "#log-bad"];
  const found = await browser.run("return arguments[0].filter((css) => document.querySelector(css))", coloured);
  same("all that has a colour is there", found, coloured);
  const least = pairs.reduce((low, pair) => (pair[1] < low[1] ? pair : low));
  same(`contrast of ${least[0]}`, least[1] >= 4.5, true);
  console.log(`the least contrast is ${least[1].toFixed(1)} to 1`);
}

async function testNarrow() {
  await openCard("good", 1);
  await give("log", "bad-night");
  for (const view of ["card", "log", "book"]) {
    if (view === "book") await give("book", "damaged");
    await click(`tab-${view}`);
    for (const width of [360, 320]) {
      await browser.size(width, 740);
      const [inner, rows, ...boxes] = await browser.run(
        `const boxes = [document.documentElement, ...document.querySelectorAll("section:not([hidden]) .wide")];
        return [innerWidth, document.querySelectorAll("section:not([hidden]) tbody tr").length, ...boxes.map((box) => box.scrollWidth - box.clientWidth)];`,
      );
      same(`${view} fits ${width} pixels`, [inner, rows > 5, ...boxes], view === "card" ? [width, true, 0] : [width, true, 0, 0]);
    }
  }
  await browser.size(1200, 900);
}

async function takePictures() {
  await give("book", "damaged");
  await browser.run("document.getElementById('tab-book').click(); document.activeElement.blur()");
  await browser.size(1100, 870);
  writeFileSync(`${pictures}/viewer-book.png`, await browser.picture());
  await testCard(2, { X3: 1, D16: 21, N2: 5 });
  await browser.run("document.activeElement.blur()");
  await browser.size(1100, 800);
  writeFileSync(`${pictures}/viewer-card.png`, await browser.picture());
  await give("log", "bad-night");
  await click("tab-log");
  await browser.size(1100, 510);
  writeFileSync(`${pictures}/viewer-log.png`, await browser.picture());
}

try {
  await load();
  await testGood();
  await testDamaged();
  await testFilter();
  await testUnasked();
  await testMore();
  await testMarks();
  await testLeftOut();
  await testValues();
  await testCard(0, { D1: 1000 });
  await testCard(1, { V10: 10, D0: 3, D4: 39 });
  await testCard(1, { V10: 300 });
  await testCard(2, { X3: 1, D16: -21, N2: 5 });
  await testCard(4, { V0: 0, D17: 5 });
  await testCard(4, { V0: 2, V1: 3, D17: 5, D3: -1 });
  for (const name of ["night", "bad-night", "cut-night", "long-night", "empty"]) await testLog(name);
  await testStale();
  await testTime();
  await testBadInput();
  await testSpoiled();
  await testDrop();
  await testKeys();
  await testContrast();
  await testNarrow();
  if (pictures) await takePictures();
  const said = (await browser.console()).filter(({ level }) => level === "SEVERE");
  same("the console", said.map(({ message }) => message), []);
} finally {
  await browser.close();
}
console.log(failed === 0 ? `the page: ${compared} comparisons, all good` : `the page: ${failed} of ${compared} differ`);
process.exit(failed === 0 ? 0 : 1);

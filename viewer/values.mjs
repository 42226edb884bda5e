// What cards give, for the module in node and for the page, and what the native library gives for the same (viewer/evaluate.c).
import { spawnSync } from "node:child_process";
import { existsSync } from "node:fs";

// target, expression, cells in the order in which they are filled in, tick
export const VALUES = [
  ["D17", "IF(X3, D16, N2) * 2", { X3: "1", D16: "21", N2: "5" }],
  ["D17", "IF(X3, D16, N2) * 2", { X3: "0", D16: "21", N2: "-32768" }],
  ["D0", "-2147483647 - 1", {}],
  ["D0", "0xFFFFFFFF", {}],
  ["N0", "V1 - V2", { V1: "1", V2: "65535" }],
  ["V0", "0 - 1", {}],
  ["R0", "(D1 + 2) / 4.0", { D1: "7" }],
  ["R0", "R1 * R2", { R1: "1.1", R2: "3" }],
  ["R0", "R1 / 3", { R1: "1E20" }],
  ["R0", "R1 / 1E20", { R1: "3E-20" }],
  ["R0", "-R1 * 0", { R1: "2.5" }],
  ["R0", "0.1", {}],
  ["R0", "16777216.0 + D1", { D1: "1" }],
  ["D0", "R1", { R1: "2147483520.0" }],
  ["D0", "R1", { R1: "-2.5" }],
  ["R0", "R1 ** 3", { R1: "3000.0 ** 3" }],
  ["C3", "X3 && C4", { X3: "1", C4: "1" }],
  ["C3", "X3 + C4", { X3: "1", C4: "2" }],
  ["C3", "2", {}],
  ["C3", "D40 > 100", { D40: "101" }],
  ["D1", "D17 / V0 + -D[V1]", { V0: "0", D17: "5" }],
  ["D1", "D17 / V0 + -D[V1]", { V0: "2", V1: "3", D17: "5", D3: "-1" }],
  ["D1", "D17 / V0 + -D[V1]", { V0: "2", V1: "256" }],
  ["D1", "D2 + 1", { D2: "2147483647" }],
  ["D1", "1 << D2", { D2: "32" }],
  ["D1", "R1 % 0.0", { R1: "1.5" }],
  ["D[V10 + 32]", "SUMR(D0, 10)", { V10: "10", D0: "3", D4: "39" }],
  ["D[V10 + 32]", "SUMR(D0, 10)", { V10: "300" }],
  ["R[D0]", "AVGR(V0, 4)", { D0: "255", V0: "1", V1: "2" }],
  ["C[D0 - 1]", "D0 == 1", { D0: "1" }],
  ["N[V0]", "D0 * 1000", { V0: "5", D0: "33" }],
  ["D41", "TICKms()", {}, "0xFFFFFF00"],
  ["C3", "SINCE(D41) >= 1500", { D41: "0xFFFFFF00" }, "0x000004DB"],
  ["C3", "SINCE(D41) >= 1500", { D41: "0xFFFFFF00" }, "0x000004DC"],
  ["D0", "SINCE(D41)", { D41: "-256" }, "2147483647"],
  ["V[TICKms()]", "D1 / (TICKms() - 7)", { D1: "8" }, "7"],
  ["V[TICKms()]", "D1 / (TICKms() - 7)", { D1: "8" }, "9"],
  ["D0", "D1 + D2", { D1: "2147483648", D2: "R0 + 1 / 0" }],
  ["V0", "V1", { V1: "70000" }],
].map(([target, expr, cells, tick = "0"]) => ({ target, expr, cells, tick }));

// Singles of every size, as they are typed into R1: the digits are those of a row of numbers that has no pattern.
export const SINGLES = Array.from({ length: 2000 }, (_, i) => {
  const digits = `${1 + ((i * 7919 * 104729 + 12345) % 99999999)}`.slice(0, 1 + (i % 9));
  return `${i % 5 === 0 ? "-" : ""}${digits[0]}.${digits.slice(1) || "0"}E${(i % 41) - 20}`;
});
export const TYPED = SINGLES.map((text) => ({ target: "R0", expr: "R1", cells: { R1: text }, tick: "0" }));

const PROGRAM = "target/viewer/evaluate";
export const there = () => existsSync(PROGRAM);

// The page writes decimals as JavaScript does: 1e-7, and not 1e-07.
const asWritten = (text) => text.replace(/^\S+(?= \(0x)/, (digits) => (Object.is(Number(digits), -0) ? "-0" : `${Number(digits)}`));

export function nativeValues(cases) {
  const input = cases.map(({ target, expr, cells, tick }) => {
    const set = Object.entries(cells).map(([cell, value]) => `${cell}=${value}\n`);
    return `tick=${tick}\n${set.join("")}target=${target}\nexpr=${expr}\n\n`;
  });
  const { status, stdout } = spawnSync(PROGRAM, { input: input.join(""), maxBuffer: 1 << 28 });
  if (status !== 0) throw new Error(`${PROGRAM} ends with ${status}`);
  const given = stdout.toString().trim().split("\n").map((line) => JSON.parse(line));
  if (given.length !== cases.length) throw new Error(`${PROGRAM}: ${given.length} lines for ${cases.length} cases`);
  return given.map((each) => {
    const { stored } = each;
    return { ...each, value: asWritten(each.value), stored: { ...stored, holds: asWritten(stored.holds), before: asWritten(stored.before) } };
  });
}

// The operations of include/formula.h over formula.wasm, in node and in browsers. header.mjs, which build.sh makes of the header, lists them.
//
//   import { load, CODE_BYTES, MEMORY_BYTES } from "./formula.mjs";
//   const formulas = await load(await fetch("formula.wasm"));          // or bytes, or a compiled WebAssembly.Module
//   const code = new Uint8Array(CODE_BYTES), memory = new Uint8Array(MEMORY_BYTES);
//   const { answer, place, count } = formulas.compile("(D1 + 2) / 4.0", code);
//   formulas.run(code, count, memory, "R0");
//
// A method is an operation: cards_read is cardsRead. It takes what the function takes, in the header's order, without the lengths: bytes as a
// Uint8Array or a string, words as a Uint32Array, a list of cells as a Uint16Array, numbers. What the function writes is written into the
// caller's array. A text or code that is left out is empty, a number 0. It returns the report or result as an object, with the header's
// names, or the number that the function returns; a structure that is also read, as formula_replay's state, may be given as the last.
import { OPERATIONS, STRUCTURES } from "./header.mjs";
export * from "./header.mjs";

const PAGE = 65536;
// The least alignment that every structure and array of the header has.
const ALIGNMENT = 8;

const SIZES = { uint32_t: 4, uint64_t: 8 };

const sizeOf = (type) =>
  SIZES[type] ?? STRUCTURES[type].reduce((size, [, field, length = 1]) => size + length * sizeOf(field), 0);

// A value of a type of the header, at a place of a DataView.
function getValue(view, at, type) {
  if (type === "uint32_t") return view.getUint32(at, true);
  if (type === "uint64_t") return Number(view.getBigUint64(at, true));
  const result = {};
  for (const [name, field, length] of STRUCTURES[type]) {
    const size = sizeOf(field);
    if (length === undefined) result[name] = getValue(view, at, field);
    else result[name] = Array.from({ length }, (_, i) => getValue(view, at + i * size, field));
    at += size * (length ?? 1);
  }
  return result;
}

// The bytes of a structure of plain numbers; what is not named is 0.
function structureBytes(type, given) {
  const bytes = new Uint8Array(sizeOf(type));
  const view = new DataView(bytes.buffer);
  let at = 0;
  for (const [name, field, length = 1] of STRUCTURES[type]) {
    if (given[name] !== undefined && field === "uint32_t") view.setUint32(at, given[name], true);
    if (given[name] !== undefined && field === "uint64_t") view.setBigUint64(at, BigInt(given[name]), true);
    at += length * sizeOf(field);
  }
  return bytes;
}

const asBytes = (given) => {
  if (typeof given === "string") return new TextEncoder().encode(given);
  return new Uint8Array(given.buffer, given.byteOffset, given.byteLength);
};

const camel = (name) => name.replace(/_([a-z])/g, (_, letter) => letter.toUpperCase());

export class Formulas {
  constructor(exports) {
    this.exports = exports;
    const base = exports.__heap_base.value;
    this.base = base + (-base & (ALIGNMENT - 1));
  }

  // Calls an operation by the header's name. Its parts are bytes for each pointer and numbers; those that it writes are written back.
  call(name, parts) {
    const forms = OPERATIONS[name];
    const places = this.#lay(parts);
    const memory = new Uint8Array(this.exports.memory.buffer);
    const words = [];
    forms.forEach(([form, , size], i) => {
      if (form === "count") words.push(BigInt(parts[i]));
      else if (form === "word") words.push(Number(parts[i]) | 0);
      else {
        memory.set(parts[i], places[i]);
        words.push(places[i]);
        if (form !== "struct") words.push(BigInt(parts[i].length / Number(size)));
      }
    });
    const result = this.exports[`formula_${name}`](...words);
    forms.forEach(([form], i) => {
      if (form === "write" || form === "struct") parts[i].set(memory.subarray(places[i], places[i] + parts[i].length));
    });
    return result === undefined ? undefined : result >>> 0;
  }

  // A place for each part that is bytes, one behind the other; the memory grows where they do not fit.
  #lay(parts) {
    let end = this.base;
    const places = parts.map((part) => {
      if (!(part instanceof Uint8Array)) return undefined;
      const place = end;
      end += part.length + (-part.length & (ALIGNMENT - 1)) + ALIGNMENT;
      return place;
    });
    const missing = end - this.exports.memory.buffer.byteLength;
    if (missing > 0) this.exports.memory.grow(Math.ceil(missing / PAGE));
    return places;
  }
}

function partOf([form, name, size], given) {
  if (form === "count" || form === "word") return given ?? 0;
  if (form === "struct") return structureBytes(size, given ?? {});
  if (given === undefined && form === "read") return new Uint8Array(0);
  if (given === undefined) throw new TypeError(`${name} is missing: an array that is written`);
  const bytes = asBytes(given);
  if (bytes.length % Number(size) !== 0) throw new TypeError(`${name} wants places of ${size} bytes`);
  return bytes;
}

for (const [name, forms] of Object.entries(OPERATIONS)) {
  Formulas.prototype[camel(name)] = function (...given) {
    if (given.length > forms.length) throw new TypeError(`${camel(name)} takes ${forms.map(([, part]) => part).join(", ")}`);
    const parts = forms.map((form, i) => partOf(form, given[i]));
    const result = this.call(name, parts);
    const last = forms.length - 1;
    if (forms[last][0] !== "struct") return result;
    return getValue(new DataView(parts[last].buffer), 0, forms[last][2]);
  };
}

// source: the bytes of formula.wasm, a WebAssembly.Module, or a Response (or a promise of one) from which it is read.
export async function load(source) {
  const given = await source;
  if (given instanceof WebAssembly.Module) return new Formulas((await WebAssembly.instantiate(given)).exports);
  const bytes = typeof Response !== "undefined" && given instanceof Response ? await given.arrayBuffer() : given;
  return new Formulas((await WebAssembly.instantiate(bytes)).instance.exports);
}

// Replays recorded calls on formula.wasm and compares what is returned and every buffer that is written. record.c has the form of the file.
const TABLE = Uint32Array.from({ length: 256 }, (_, byte) => {
  for (let i = 0; i < 8; i++) byte = byte & 1 ? 0xedb88320 ^ (byte >>> 1) : byte >>> 1;
  return byte;
});

function checksum(bytes) {
  let sum = ~0;
  for (const byte of bytes) sum = TABLE[(sum ^ byte) & 255] ^ (sum >>> 8);
  return ~sum >>> 0;
}

class Reader {
  constructor(data) {
    this.data = data;
    this.at = 0;
  }

  word() {
    this.at += 4;
    return this.data.readUInt32LE(this.at - 4);
  }

  long() {
    this.at += 8;
    return this.data.readBigUInt64LE(this.at - 8);
  }

  name() {
    const end = this.data.indexOf(0, this.at), name = this.data.toString("latin1", this.at, end);
    this.at = end + 1;
    return name;
  }

  // A buffer: its size, its alignment on x86-64, the byte that it ends with and how many bytes come before that; those bytes.
  buffer() {
    const [size, , fill, head] = [this.word(), this.word(), this.word(), this.word()];
    const bytes = new Uint8Array(size).fill(fill);
    bytes.set(this.data.subarray(this.at, this.at + head));
    this.at += head;
    return bytes;
  }
}

const NUMBERS = ["count", "word"];
const WRITTEN = ["write", "struct"];

/** The number of calls that differ. */
export function replay(formulas, operations, data) {
  const reader = new Reader(data);
  const calls = {};
  let different = 0;
  while (reader.at < data.length) {
    const name = reader.name(), forms = operations[name];
    const parts = forms.map(([form]) => (NUMBERS.includes(form) ? reader.long() : reader.buffer()));
    const returned = formulas.call(name, parts) ?? 0;
    const wrong = [];
    forms.forEach(([form, part], i) => {
      if (WRITTEN.includes(form) && checksum(parts[i]) !== reader.word()) wrong.push(part);
    });
    if (returned !== reader.word()) wrong.push("what is returned");
    calls[name] = (calls[name] ?? 0) + 1;
    if (wrong.length > 0 && different++ < 5) console.log(`call ${calls[name]} of ${name} differs: ${wrong.join(", ")}`);
  }
  const all = Object.entries(calls).map(([name, number]) => `${name} ${number}`);
  console.log(`formula.wasm: calls of x86-64 replayed: ${all.join(", ")}; ${different} differ`);
  return different;
}

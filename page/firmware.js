// Firmware files: ELF with its device and its function names, Intel HEX as a raw image. A damaged file gives what can be read of it; the
// program itself judges the bytes.

const NOTE = ".note.gnu.avr.deviceinfo";
const SYMBOL_TABLE = 2;
const FUNCTION = 2;
const NO_TYPE = 0;

function kindOf(bytes) {
  const head = String.fromCharCode(...bytes.subarray(0, 64));
  if (head.startsWith("\x7fELF")) return "elf";
  return /^\s*:[0-9A-Fa-f]{10}/.test(head) ? "hex" : "raw";
}

const textOf = (bytes) => new TextDecoder().decode(bytes);

function stringAt(bytes, at) {
  const end = bytes.indexOf(0, at);
  return textOf(bytes.subarray(at, end < 0 ? bytes.length : end));
}

// The sections of a 32-bit little-endian ELF file: name, type, bytes, number of the linked section.
function sectionsOf(bytes) {
  const view = new DataView(bytes.buffer, bytes.byteOffset, bytes.byteLength);
  const start = view.getUint32(32, true);
  const [size, count, names] = [46, 48, 50].map((at) => view.getUint16(at, true));
  const headers = Array.from({ length: count }, (_, number) => {
    const field = (at) => view.getUint32(start + number * size + at, true);
    return { name: field(0), type: field(4), bytes: bytes.subarray(field(16), field(16) + field(20)), link: field(24) };
  });
  return headers.map((it) => ({ ...it, name: stringAt(headers[names].bytes, it.name) }));
}

// The device that the file was linked for: the last text of its note.
function deviceOf(sections) {
  const note = sections.find((it) => it.name === NOTE);
  if (!note) return null;
  const text = textOf(note.bytes).replace(/\0+$/, "");
  return text.slice(text.lastIndexOf("\0") + 1) || null;
}

// The names of functions by word address: a function's own before a label's, and no label that begins with a dot.
function namesOf(sections) {
  const names = new Map();
  const table = sections.find((it) => it.type === SYMBOL_TABLE);
  if (!table) return names;
  const view = new DataView(table.bytes.buffer, table.bytes.byteOffset, table.bytes.byteLength);
  for (const wanted of [NO_TYPE, FUNCTION]) {
    for (let at = 0; at + 16 <= table.bytes.length; at += 16) {
      const [value, type, section] = [view.getUint32(at + 4, true), table.bytes[at + 12] & 15, view.getUint16(at + 14, true)];
      const name = stringAt(sections[table.link].bytes, view.getUint32(at, true));
      const isCode = section > 0 && section < 0xff00 && value % 2 === 0 && value < 0x800000;
      if (isCode && type === wanted && /^[^.]/.test(name)) names.set(value / 2, name);
    }
  }
  return names;
}

// The flash that the records of Intel HEX hold, from byte 0 on; bytes between them are FF. Throws a text that names the first faulty line.
function imageOfHex(text) {
  const NOT_FLASH = 0x800000;
  const image = [];
  let base = 0;
  let isEnded = false;
  text.split(/\r\n|\r|\n/).forEach((whole, index) => {
    const line = whole.trim();
    if (!line) return;
    const fault = (why) => new Error(`line ${index + 1}: ${why}`);
    if (isEnded) throw fault("a record after the end record");
    if (!/^:([0-9A-Fa-f]{2}){5,}$/.test(line)) throw fault("no record of Intel HEX");
    const bytes = line.slice(1).match(/../g).map((it) => parseInt(it, 16));
    const [length, high, low, type] = bytes;
    if (bytes.length !== length + 5) throw fault(`the record says ${length} bytes of data and has ${bytes.length - 5}`);
    if (bytes.reduce((sum, it) => sum + it, 0) % 256) throw fault("the checksum is wrong");
    const value = bytes[4] * 256 + bytes[5];
    if (type === 1) isEnded = true;
    else if (type === 2) base = value * 16;
    else if (type === 4) base = value * 65536;
    else if (type === 0) {
      for (let at = 0; at < length; at++) {
        const address = base + high * 256 + low + at;
        if (address < NOT_FLASH) image[address] = bytes[4 + at];
      }
    } else if (type !== 3 && type !== 5) throw fault(`there is no record type ${type}`);
  });
  if (!isEnded) throw new Error("the end record is missing: the file is cut off");
  return Uint8Array.from({ length: image.length + (image.length % 2) }, (_, at) => image[at] ?? 0xff);
}

// What the page knows of a firmware: the bytes for the program, the device if the file names one, names by word address.
function readFirmware(file, bytes) {
  const kind = kindOf(bytes);
  const firmware = { file, kind, bytes, device: null, names: new Map() };
  if (kind === "hex") firmware.bytes = imageOfHex(textOf(bytes));
  if (kind === "elf") {
    try {
      const sections = sectionsOf(bytes);
      firmware.device = deviceOf(sections);
      firmware.names = namesOf(sections);
    } catch (fault) {
      if (!(fault instanceof RangeError || fault instanceof TypeError)) throw fault;
    }
  }
  return firmware;
}

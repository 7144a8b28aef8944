// The program in Node.js 20 or later: the module lies beside this file. What this file is made of: runtime/host.js, then runtime/node.js.
import fs from "node:fs";
import v8 from "node:v8";

// an empty module with a 64-bit memory: versions that know one only by a flag are given it
const MEMORY64 = new Uint8Array([0, 97, 115, 109, 1, 0, 0, 0, 5, 3, 1, 4, 1]);
if (!WebAssembly.validate(MEMORY64)) v8.setFlagsFromString("--experimental-wasm-memory64");

const GIB = 2 ** 30;
const answered = (call) => {
  try {
    return call();
  } catch (fault) {
    if (typeof fault.errno !== "number") throw fault;
    return -Math.abs(fault.errno);
  }
};

// a pipe that takes nothing now is tried again after a millisecond
const written = (file, bytes) => {
  for (;;) {
    try {
      return fs.writeSync(file, bytes);
    } catch (fault) {
      if (fault.code !== "EAGAIN") throw fault;
      Atomics.wait(new Int32Array(new SharedArrayBuffer(4)), 0, 0, 1);
    }
  }
};

const files = {
  open: (path) => answered(() => fs.openSync(Buffer.from(path), "r")),
  read: (file, bytes) => answered(() => fs.readSync(file, bytes)),
  write: (file, bytes) => answered(() => written(file, bytes)),
  close: (file) => answered(() => (fs.closeSync(file), 0)),
};

// Node puts U+FFFD in place of bytes that are no UTF-8; a byte that no UTF-8 text has lets the program refuse such a word
const words = process.argv.slice(2).map((word) => (word.includes("\ufffd") ? new Uint8Array([0xff]) : word));
const module = new WebAssembly.Module(fs.readFileSync(new URL("./stackbound.wasm", import.meta.url)));
process.exitCode = runStackbound(module, words, files, Number(process.env.STACKBOUND_MEMORY ?? 8 * GIB));

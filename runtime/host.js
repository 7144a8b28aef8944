// Runs the module of stackbound in a host, and returns the exit status. `words` are the arguments without the program's name. `files` has
// open(path bytes), read(file, bytes), write(file, bytes) and close(file); each answers what the system's function of this name would, or a
// negated error number. `most` is how many bytes of memory the program may take.
function runStackbound(module, words, files, most) {
  const arguments_ = ["stackbound", ...words].map((word) => (typeof word === "string" ? new TextEncoder().encode(word) : word));
  let memory;
  const bytes = (at, count) => new Uint8Array(memory.buffer, Number(at), Number(count));
  const host = {
    argument(number, to, room) {
      const word = arguments_[Number(number)];
      if (word === undefined) return -1n;
      if (word.length > Number(room)) return -2n;
      bytes(to, word.length).set(word);
      return BigInt(word.length);
    },
    open: (path, length) => files.open(bytes(path, length)),
    read: (file, to, count) => BigInt(files.read(file, bytes(to, count))),
    write: (file, from, count) => BigInt(files.write(file, bytes(from, count))),
    close: (file) => files.close(file),
    permits: (size) => (Number(size) <= most ? 1 : 0),
  };
  const instance = new WebAssembly.Instance(module, { host });
  memory = instance.exports.memory;
  return instance.exports.main(0, 0n);
}

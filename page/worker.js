// The program in a worker: files are bytes by their names, the output is kept.
self.onmessage = ({ data: { module, words, files, most } }) => {
  const NO_FILE = -2;
  const held = [];
  const output = [];
  const memory = {
    open(path) {
      const bytes = files[new TextDecoder().decode(path)];
      if (bytes === undefined) return NO_FILE;
      held.push({ bytes, at: 0 });
      return held.length + 2;
    },
    read(number, to) {
      const file = held[number - 3];
      const piece = file.bytes.subarray(file.at, file.at + to.length);
      to.set(piece);
      file.at += piece.length;
      return piece.length;
    },
    write(number, from) {
      if (number === 1) output.push(from.slice());
      return from.length;
    },
    close: () => 0,
  };
  try {
    const status = runStackbound(module, words, memory, most);
    new Blob(output).arrayBuffer().then((bytes) => self.postMessage({ status, output: new Uint8Array(bytes) }));
  } catch (fault) {
    self.postMessage({ fault: String(fault) });
  }
};

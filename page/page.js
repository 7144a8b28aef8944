// The page: files in, commands of the program in a worker, tables out.

const MOST_MEMORY = 4 * 2 ** 30;
// an empty module with a 64-bit memory
const MEMORY64 = new Uint8Array([0, 97, 115, 109, 1, 0, 0, 0, 5, 3, 1, 4, 1]);
const $ = (id) => document.getElementById(id);
const element = (name, text = "", className = "") => Object.assign(document.createElement(name), { textContent: text, className });

const state = { firmware: null, certificate: null, worker: null, module: null, clock: 0, isStopped: false, stop: () => {} };

const bytesOfBase64 = (text) => Uint8Array.from(atob(text), (letter) => letter.charCodeAt(0));

async function programModule() {
  const packed = bytesOfBase64($("module").textContent.trim());
  const stream = new Blob([packed]).stream().pipeThrough(new DecompressionStream("gzip"));
  return WebAssembly.compile(await new Response(stream).arrayBuffer());
}

// One command of the program; its status and output.
function run(words) {
  const files = { firmware: state.firmware.bytes };
  if (words.includes("certificate")) files.certificate = state.certificate.bytes;
  const lines = $("lines").value;
  const options = ["--device", $("device").value];
  if (lines.trim()) {
    files.lines = new TextEncoder().encode(lines.endsWith("\n") ? lines : `${lines}\n`);
    options.push("--assume", "lines");
  }
  return new Promise((resolve, reject) => {
    if (state.isStopped) throw new Error("stopped");
    const url = URL.createObjectURL(new Blob([$("worker").textContent], { type: "text/javascript" }));
    state.worker = new Worker(url);
    URL.revokeObjectURL(url);
    state.stop = () => reject(new Error("stopped"));
    state.worker.onmessage = ({ data }) => (data.fault ? reject(new Error(data.fault)) : resolve({ ...data, text: textOf(data.output) }));
    state.worker.onerror = (event) => reject(new Error(event.message || "the worker could not be started"));
    state.worker.postMessage({ module: state.module, words: [...words, ...options], files, most: MOST_MEMORY });
  }).finally(() => state.worker?.terminate());
}

// The function at a word: the one that begins there, else the last before it with the distance in bytes.
function place(word) {
  const number = parseInt(word, 16);
  const before = [...state.firmware.names.keys()].filter((it) => it <= number);
  if (before.length === 0) return word;
  const begin = Math.max(...before);
  const name = state.firmware.names.get(begin);
  return begin === number ? name : `${name}+${2 * (number - begin)}`;
}

function functionName(kind, entry, name) {
  if (kind === "root") return "reset";
  if (/^v\d+$/.test(kind)) return `interrupt ${kind.slice(1)} (__vector_${Number(kind.slice(1)) - 1})`;
  return name === "-" ? place(entry) : name;
}

function table(title, heads, rows) {
  const whole = element("table");
  whole.append(element("caption", title));
  const head = whole.createTHead().insertRow();
  heads.forEach((text, at) => head.append(Object.assign(element("th", text, at ? "" : "count"), { scope: "col" })));
  const body = whole.createTBody();
  for (const row of rows) {
    const line = body.insertRow();
    row.forEach((text, at) => line.append(element("td", text, at ? "" : "count")));
  }
  const scrolled = element("div", "", "scrolled");
  scrolled.append(whole);
  return scrolled;
}

// `report`: the most that each function needs, whatever is enabled as it is entered.
function needsTable(text) {
  const needs = new Map();
  for (const line of text.split("\n").filter((it) => it.startsWith("inst "))) {
    const [, kind, entry, , , name, , need] = line.split(" ");
    const called = functionName(kind, entry, name);
    needs.set(called, Math.max(needs.get(called) ?? 0, Number(need)));
  }
  const rows = [...needs].sort((one, other) => other[1] - one[1]).map(([name, need]) => [String(need), name]);
  return table("What each function needs, with all that it calls and its interrupts", ["bytes", "function"], rows);
}

// `explain`: where the bytes of the bound go.
function chainTable(text) {
  const rows = text.split("\n").filter((it) => it.startsWith("link ")).map((line) => {
    const words = line.split(" ");
    const [, kind, entry, , , name, how, word, , adds] = words;
    return [adds, functionName(kind, entry, name), how === "recur" ? `recursion at ${word}` : `${place(word)} (word ${word})`];
  });
  return table("The deepest chain", ["bytes", "function", "goes on or ends at"], rows);
}

function show(kind, head, ...more) {
  const box = element("div", "", `verdict ${kind}`);
  box.append(element("strong", head), ...more.map((text) => element("p", text)));
  $("answer").replaceChildren(box);
}

function showRaw(command, said) {
  const box = element("details");
  box.append(element("summary", `What \`${command}\` prints (exit status ${said.status})`), element("pre", said.text));
  box.lastChild.id = `raw-${command}`;
  box.dataset.status = said.status;
  $("answer").append(box);
}

// A refusal names words; the functions at them are told beside it.
function refusal(text) {
  const words = [...new Set(text.match(/\b[0-9A-F]{4,5}\b/g) ?? [])].filter((it) => /[0-9]/.test(it) || it.length === 4);
  return words.map((word) => (place(word) === word ? "" : `Word ${word} is ${place(word)}.`)).filter(Boolean);
}

async function showAccepted(said) {
  const [, , bound, witness] = said.text.trim().split(" ");
  const report = await run(["report", "firmware", "certificate"]);
  const explain = await run(["explain", "firmware", "certificate"]);
  const premises = await run(["premises", "firmware", "certificate"]);
  const [, room, fits] = report.text.match(/room (\S+) fits (\S+)/) ?? [];
  const places = Number(premises.text.match(/places (\d+)/)?.[1] ?? 0);
  const beside = `Beside static data there are ${room} bytes of SRAM`;
  const FIT = { yes: `${beside}: it fits.`, no: `${beside}: it may not fit.` };
  show(
    fits === "no" ? "bad" : places ? "review" : "good",
    `The stack needs at most ${bound} bytes.`,
    FIT[fits] ?? "",
    witness === "attained" ? "Some run is as deep." : "No run as deep is known; the bound may be too high, never too low.",
    places
      ? `It holds up to the first flagged step. Places where one may be: ${places}. Review them.`
      : "It holds for every run that keeps to the lines.",
  );
  $("answer").append(needsTable(report.text), chainTable(explain.text));
  if (places) {
    const found = premises.text.split("\n").map((it) => it.match(/^at (\S+) (.*) in /)).filter(Boolean);
    const rows = found.map(([, word, code]) => [word, place(word), code]);
    $("answer").append(table("Places where a step may be flagged", ["word", "function", "instruction"], rows));
  }
  showRaw("check", said);
  showRaw("report", report);
  showRaw("explain", explain);
  showRaw("premises", premises);
}

async function check() {
  const said = await run(["check", "firmware", "certificate"]);
  if (said.status === 0) return showAccepted(said);
  show("bad", said.status === 1 ? "The certificate is rejected." : "This was not checked.", said.text.trim(), ...refusal(said.text));
  return showRaw("check", said);
}

async function analyse() {
  const said = await run(["analyse", "firmware"]);
  if (said.status === 0) {
    takeCertificate("stackbound.cert", said.output);
    await check();
  } else show("bad", said.status === 10 ? "There is no bound." : "This was not analysed.", said.text.trim(), ...refusal(said.text));
  showRaw("analyse", said);
}

function busy(is) {
  document.body.dataset.state = is ? "busy" : "done";
  for (const id of ["analyse", "check"]) $(id).disabled = is;
  $("working").hidden = !is;
  clearInterval(state.clock);
  if (!is) return;
  const start = Date.now();
  const tick = () => ($("seconds").textContent = `${Math.round((Date.now() - start) / 1000)} s`);
  tick();
  state.clock = setInterval(tick, 1000);
}

async function work(task, needsCertificate) {
  if (!state.firmware) return show("bad", "There is no firmware yet.", "Choose a file first.");
  if (!$("device").value) return show("bad", "Which device is it?", "The file does not name one: choose it from the list.");
  if (needsCertificate && !state.certificate) return show("bad", "There is no certificate yet.", "Choose the file that was sent to you.");
  busy(true);
  Object.assign(state, { isStopped: false, stop: () => {} });
  $("answer").replaceChildren();
  try {
    state.module ??= await programModule();
    await task();
  } catch (fault) {
    show("bad", fault.message === "stopped" ? "Stopped." : "The program did not end.", fault.message === "stopped" ? "" : fault.message);
  } finally {
    busy(false);
  }
  return $("answer").focus();
}

function takeCertificate(name, bytes) {
  state.certificate = { name, bytes };
  $("certificate-name").textContent = `${name}, ${bytes.length} bytes`;
  URL.revokeObjectURL($("save").href);
  $("save").href = URL.createObjectURL(new Blob([bytes], { type: "text/plain" }));
  $("save").download = `${state.firmware?.file.replace(/\.[^.]*$/, "") ?? "stackbound"}.cert`;
  $("save").hidden = false;
}

function takeFirmware(name, bytes) {
  try {
    state.firmware = readFirmware(name, bytes);
  } catch (fault) {
    state.firmware = null;
    $("firmware-name").textContent = `${name}: ${fault.message}`;
    return;
  }
  const { kind, device } = state.firmware;
  const known = device && [...$("device").options].some((it) => it.value === device);
  const what = { elf: "ELF", hex: "Intel HEX", raw: "a raw image" }[kind];
  const unknown = device && !known ? `; linked for ${device}, which stackbound does not know` : "";
  $("firmware-name").textContent = `${name}, ${what}, ${bytes.length} bytes${unknown}`;
  $("device").value = known ? device : "";
  $("answer").replaceChildren();
}

const TAKERS = {
  firmware: takeFirmware,
  certificate: takeCertificate,
  "lines-file": (name, bytes) => {
    $("lines").value = textOf(bytes);
  },
};

for (const [id, take] of Object.entries(TAKERS)) {
  const taken = async (file) => file && take(file.name, new Uint8Array(await file.arrayBuffer()));
  const zone = $(id).closest(".drop");
  // a file that is chosen again, as after a build, is read again
  $(id).addEventListener("click", () => ($(id).value = ""));
  $(id).addEventListener("change", async () => {
    await taken($(id).files[0]);
    document.body.dataset.taken = id;
  });
  zone.addEventListener("dragover", (event) => {
    event.preventDefault();
    zone.classList.add("over");
  });
  zone.addEventListener("dragleave", () => zone.classList.remove("over"));
  zone.addEventListener("drop", (event) => {
    event.preventDefault();
    zone.classList.remove("over");
    taken(event.dataTransfer.files[0]);
  });
}

$("analyse").addEventListener("click", () => work(analyse, false));
$("check").addEventListener("click", () => work(check, true));
$("stop").addEventListener("click", () => {
  state.isStopped = true;
  state.stop();
});
if (!(WebAssembly.validate(MEMORY64) && "DecompressionStream" in window)) {
  $("unsupported").hidden = false;
  $("form").hidden = true;
}
document.body.dataset.state = "ready";

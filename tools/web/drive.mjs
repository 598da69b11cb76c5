#!/usr/bin/env node
// drive.mjs PAGE [FOLDER]: opens the page in headless chromium with the network off, and goes through what a student does, by mouse and keys. With a FOLDER it leaves a picture
// of each view at each size there. The status is 1 where anything is not as it should be. CPX_DRIVE_SHORT=1 makes fewer edits, at fewer sizes.
import { mkdirSync, mkdtempSync, readFileSync, rmSync, writeFileSync } from "node:fs";
import { tmpdir } from "node:os";
import { join, resolve } from "node:path";
import { pathToFileURL } from "node:url";
import { gunzipSync, gzipSync } from "node:zlib";
import { call, moduleOf } from "../../web/program.js";
import { Browser, sleep } from "./chromium.mjs";

const [file, folder] = process.argv.slice(2);
if (!file) {
  console.error("drive: drive.mjs PAGE [FOLDER]");
  process.exit(2);
}
const text = readFileSync(file, "utf8");
const page = pathToFileURL(resolve(file)).href;
const within = (id) => new RegExp(`<script type="[\\w/]+" id="${id}">([^<]*)</script>`).exec(text)[1];
const examples = Object.fromEntries(JSON.parse(within("examples")).map((it) => [it.name, it.source]));
const module = await moduleOf(within("program"));
const said = (words, source) => new TextDecoder().decode(call(module, words, source).out);
// Fewer edits and sizes, where there is little time.
const isShort = process.env.CPX_DRIVE_SHORT === "1";
const work = mkdtempSync(join(tmpdir(), "cpx-drive-"));
if (folder) mkdirSync(folder, { recursive: true });

let failed = 0;
const check = (what, is, more = "") => {
  console.log(`${is ? "ok  " : "FAIL"} ${what}${more ? `: ${more}` : ""}`);
  if (!is) failed++;
};
const SHOWN = "document.body?.dataset.ready === 'yes' && !document.body.dataset.stale && !document.body.dataset.busy && !document.querySelector('#panel[aria-busy]')";
const shown = async (tab, more = "true") => { await sleep(30); await tab.until(`(${SHOWN}) && (${more})`); };
const count = (tab, selector) => tab.value(`document.querySelectorAll(${JSON.stringify(selector)}).length`);
const textOf = (tab, selector) => tab.value(`document.querySelector(${JSON.stringify(selector)})?.innerText ?? ''`);
const source = (tab) => tab.value("document.querySelector('.CodeMirror').CodeMirror.getValue()");
// As typing does it: a change that is not one of the page itself.
const write = async (tab, program) => {
  await tab.value(`(() => { const it = document.querySelector('.CodeMirror').CodeMirror; it.execCommand('selectAll'); it.replaceSelection(${JSON.stringify(program)}); })()`);
  await sleep(350);
};
const view = async (tab, name) => { await tab.click("#tabs button", name); await shown(tab); };
const choose = async (tab, name) => {
  await tab.click("#programs > button");
  await tab.type(name);
  await tab.click("#programs-panel .item[aria-current], #programs-panel li:not([hidden]) .item");
  await shown(tab);
};
const opened = async (browser, how = {}, address = page) => {
  const tab = await browser.tab(how);
  await tab.open(address);
  await shown(tab, "document.querySelector('#panel > *:not(.first)')");
  return tab;
};
const drop = (tab, name, text) => tab.value(`(() => { const data = new DataTransfer(); data.items.add(new File([${JSON.stringify(text)}], ${JSON.stringify(name)})); for (const kind of ['dragover', 'drop']) document.querySelector('.CodeMirror').dispatchEvent(new DragEvent(kind, { dataTransfer: data, bubbles: true, cancelable: true })); })()`);
const forget = (tab) => tab.value("localStorage.clear()");
const frameOf = async (tab) => {
  for (let tries = 0; tries < 200; tries++) {
    const found = [...tab.frames].find(([, info]) => info.type === "iframe");
    if (found && await tab.value("document.querySelectorAll('button').length > 3", found[0]).catch(() => false)) return found[0];
    await sleep(50);
  }
  throw new Error("no frame to play in");
};

const processes = async (browser) => (await browser.call("SystemInfo.getProcessInfo")).processInfo.filter(({ type }) => type === "renderer");

// From opening to the first answer, by the time that a processor worked, since other programs may run beside. What the clock says is told.
async function opensAtOnce(browser) {
  const worked = async () => (await processes(browser)).reduce((sum, { cpuTime }) => sum + cpuTime, 0);
  const tab = await browser.tab();
  const before = await worked(), began = performance.now();
  await tab.open(page);
  await shown(tab, "document.querySelector('#panel .card')");
  const clock = performance.now() - began, took = await worked() - before;
  check("an answer after less than two seconds of work", took < 2, `${took.toFixed(2)} s of a processor, ${(clock / 1000).toFixed(2)} s by the clock`);
  await tab.close();
}

async function opensAndAnswers(tab) {
  check("three outcomes, one of them a deadlock", (await count(tab, "#panel .card")) === 3 && (await count(tab, "#panel .card.bad")) === 1);
  check("who waits where and why", /0 program waits in forks\[1\]\.hungry\s+since event 7: put continues/.test(await textOf(tab, "#panel .card.bad")));
  for (const [name, options] of [["philosophers-deadlock", ["19"]], ["lost-update", ["12"]], ["two-displays", ["3"]]]) {
    await choose(tab, name);
    await tab.value(`(() => { const it = document.getElementById('option-choices'); it.value = '${options}'; it.dispatchEvent(new Event('change')); })()`);
    await shown(tab);
    const last = said(["outcomes", "--choices", ...options], examples[name]).trim().split("\n").pop();
    check(`${name}: complete or not in the words of the command line`, (await textOf(tab, "#panel .closing")) === last, last);
  }
  await choose(tab, "philosophers-deadlock");
}

async function showsSchedules(tab) {
  await tab.click("#panel .card.bad .way button", "Picture");
  await shown(tab, "document.querySelector('#panel svg')");
  check("a picture of the simplest schedule", (await tab.value("document.querySelector('.bar input').value")) === "0.0.1.1.1.1");
  await view(tab, "Trace");
  check("a trace of it", (await count(tab, ".trace tbody tr")) === 9 && (await textOf(tab, ".ending")).includes("ended 0.0.1.1.1.1 all-waiting output -"));
  await tab.value("document.querySelector('.trace td.line button').focus()");
  await tab.key("ArrowDown");
  check("arrows go through the trace, and mark the line of the program", (await count(tab, ".trace tr.here")) === 1 && (await count(tab, ".CodeMirror .here")) === 1);
  await view(tab, "Play");
  const frame = await frameOf(tab);
  await tab.value("document.body.focus()", frame);
  const before = await tab.value("document.body.innerText", frame);
  for (const number of "001111") await tab.value(`dispatchEvent(new KeyboardEvent('keydown', { key: '${number}', bubbles: true })) || document.dispatchEvent(new KeyboardEvent('keydown', { key: '${number}', bubbles: true }))`, frame);
  const comesTo = async (/** @type {(text: string) => boolean} */ isSo) => {
    for (let tries = 0; tries < 200; tries++) if (isSo(await tab.value("document.body.innerText", frame))) return true; else await sleep(50);
    return false;
  };
  check("played to the deadlock", await comesTo((text) => text !== before && /waits in forks\[1\]\.hungry/.test(text)));
  for (let back = 0; back < 6; back++) await tab.value("document.dispatchEvent(new KeyboardEvent('keydown', { key: 'ArrowLeft', bubbles: true }))", frame);
  check("and back", await comesTo((text) => text === before));
  check("the frame may run its script and nothing else", (await tab.value("document.querySelector('iframe').getAttribute('sandbox')")) === "allow-scripts" && (await tab.value("origin", frame)) === "null");
}

async function answersExpectations(tab) {
  await view(tab, "Expect");
  await tab.click("#panel .chip", "never all-waiting");
  await shown(tab, "document.querySelector('.answers .card')");
  check("an expectation that fails, with the schedule against it", (await count(tab, ".answers .card.bad")) === 1 && (await textOf(tab, ".answers .word")) === "0.0.1.0.0");
  await tab.value("document.querySelector('.bar input').value = 'never foo'");
  await tab.click("#panel .bar button", "Ask");
  await shown(tab, "document.querySelector('.answers .message')");
  check("an expectation that can't be asked, and why", (await textOf(tab, ".answers .message")).includes('found "foo"'));
  await choose(tab, "readers-first-endless");
  check("a program of any length opens so", (await textOf(tab, "#panel .closing")) === said(["ends", "--waits"], examples["readers-first-endless"]).trim().split("\n").pop());
  check("who may wait for ever", (await textOf(tab, "#panel .limit .kind")).includes("3 w1 may wait for ever while 1 r1 and 2 r2 go on"));
  await tab.click("#panel .limit .way button", "Trace");
  await shown(tab, "document.querySelector('.trace tr.heading')");
  check("and its round", (await count(tab, ".trace tbody tr")) > 12);
}

async function refuses(tab) {
  await choose(tab, "two-displays");
  await view(tab, "Outcomes");
  await write(tab, "var x: integer;\nbegin\n  x := true\nend.\n");
  await shown(tab, "document.querySelector('#problems.bad')");
  check("a refusal is underlined, with its sentence", (await count(tab, ".CodeMirror .fault")) > 0 && (await textOf(tab, "#problems b")) === "x takes an integer, but true is a boolean");
  check("and the rule's own text", (await tab.value("document.querySelector('#problems .rule').textContent")).includes("The two sides of an assignment".toLowerCase()));
  await tab.key("F8");
  check("F8 goes there", (await tab.value("document.querySelector('.CodeMirror').CodeMirror.getCursor().line")) === 2);
  await write(tab, examples["nested-monitors"]);
  await shown(tab, "document.querySelector('#problems.hinted')");
  check("a hint in another colour", (await count(tab, ".CodeMirror .hint")) > 0 && (await count(tab, ".CodeMirror .fault")) === 0);
}

async function keepsDrafts(tab) {
  await choose(tab, "lost-update");
  await write(tab, `${examples["lost-update"]}\n"mine"`);
  await shown(tab);
  await choose(tab, "barrier");
  await write(tab, `${examples.barrier}\n"mine, too"`);
  await shown(tab);
  await tab.call("Page.reload");
  await shown(tab, "document.querySelector('#panel .card')");
  check("a draft outlives a reload", (await source(tab)).endsWith('"mine, too"'));
  await choose(tab, "lost-update");
  check("each program has its own", (await source(tab)).endsWith('\n"mine"') && (await textOf(tab, "#notices")).includes("your draft"));
  await tab.click("#notices button", "Back to the original");
  await shown(tab);
  check("and the original comes back", (await source(tab)) === examples["lost-update"]);
}

async function shares(browser, tab) {
  await tab.value("(() => { const it = document.getElementById('option-choices'); it.value = '7'; it.dispatchEvent(new Event('change')); })()");
  await write(tab, `${examples["lost-update"]}"shared"\n`);
  await shown(tab);
  await browser.call("Browser.grantPermissions", { permissions: ["clipboardReadWrite", "clipboardSanitizedWrite"] });
  await tab.click("#share");
  await tab.until("location.hash.startsWith('#p=')");
  await sleep(100);
  const part = await tab.value("location.hash");
  const copied = (await tab.value("navigator.clipboard.readText().catch(() => document.querySelector('#dialog textarea')?.value)")) ?? "";
  check("what is shared is the part behind # alone, and short", copied === part && part.length < 2000, `${part.length} letters for a program of ${(await source(tab)).length}`);
  await write(tab, "begin end.\n");
  await shown(tab);
  check("a change takes the program out of the address", (await tab.value("location.hash")) === "");
  const other = await opened(browser, {}, page + part);
  check("an address opens as it was, and no draft takes its place", (await source(other)).endsWith('"shared"\n') && (await tab.value("document.getElementById('option-choices').value")) === "7" && (await textOf(other, "#program-name")) === "lost-update.cp");
  await write(other, "begin display(1) end.\n");
  await shown(other);
  await other.close();
  const again = await opened(browser, {}, page + part);
  check("also where it was changed before: the draft is offered beside it", (await source(again)).endsWith('"shared"\n') && (await textOf(again, "#notices")).includes("You have changed this program before"));
  await again.click("#notices button", "Open the draft");
  await shown(again);
  check("and opens", (await source(again)) === "begin display(1) end.\n");
  await again.close();
  for (const wrong of [part.slice(0, -40), "#p=AAAA", "#other", `#p=${part.slice(5)}`]) {
    const it = await opened(browser, {}, page + wrong);
    check(`a wrong address is said to be wrong: ${wrong.slice(0, 12)}`, (await textOf(it, "#notices")).includes("holds no program that can be read") && (await count(it, "#panel .card")) > 0);
    check("without a fault of a script", it.faults.length === 0, it.faults.join(" | "));
    await it.close();
  }
}

// Each stretch takes thousands of steps and begins with other values, so that this takes a minute on any machine.
const LONG = `"Options: --choices 40 --steps 100000"
type cell = monitor; var n: integer; procedure entry turn(k: integer; var y: integer); begin n := (n * 3 + k) mod 10007; y := n end; begin n := 1 end;
turner = process(c: cell; k: integer); var i, x, y: integer; begin y := k; cycle x := y; for i := 1 to 900 do x := (x + i) mod 7; c.turn(k, y) end end;
var c: cell; a, b, d, e: turner; begin init c, a(c, 1), b(c, 2), d(c, 3), e(c, 4) end.
`;

async function stops(tab) {
  await drop(tab, "long.cp", LONG);
  await shown(tab, "document.getElementById('program-name').textContent === 'long.cp'");
  check("what runs by itself has a limit, and says that it was reached", (await textOf(tab, "#panel .message")).includes("takes longer than the 5 seconds"));
  await tab.click("#panel .message button");
  await tab.until("!document.getElementById('progress').hidden && /choices done/.test(document.getElementById('progress-text').textContent)");
  check("long work says how far it has come", true, await textOf(tab, "#progress-text"));
  const took = await tab.value("new Promise((done) => { const began = performance.now(); const look = () => document.body.dataset.busy || document.querySelector('#panel[aria-busy]') ? setTimeout(look, 5) : done(performance.now() - began); document.getElementById('stop').click(); look(); })");
  check("Stop ends it within 0.3 seconds", took < 300 && (await textOf(tab, "#panel .message h2")) === "Stopped", `${Math.round(took)} ms`);
  await forget(tab);
  const began = performance.now();
  await choose(tab, "two-displays");
  check("and the next answer comes at once", (await count(tab, "#panel .card")) === 2, `${Math.round(performance.now() - began)} ms`);
  await tab.key("Escape");
}

// A program that was put into the page opens so, as ./show page will write it.
async function showsWhatIsGiven(browser) {
  const given = { name: "given", source: examples["lost-update"], options: { choices: "9" }, view: "trace", schedule: { word: [0, 0], again: null, isEndless: false } };
  writeFileSync(join(work, "given.html"), text.replace('id="given">null<', `id="given">${JSON.stringify(given)}<`));
  const tab = await opened(browser, {}, pathToFileURL(join(work, "given.html")).href);
  check("a program in the page opens as it is", (await source(tab)) === given.source && (await tab.value("document.body.dataset.view")) === "trace" && (await tab.value("document.querySelector('.bar input').value")) === "0.0" && (await tab.value("document.getElementById('option-choices').value")) === "9");
  await tab.close();
}

// The memory of all processes of the browser, in megabytes.
async function memory(browser) {
  return (await processes(browser)).reduce((sum, { id }) => sum + Number(/VmRSS:\s+(\d+)/.exec(readFileSync(`/proc/${id}/status`, "utf8"))?.[1] ?? 0) / 1024, 0);
}

async function bearsManyEdits(browser, tab, edits) {
  const sources = [examples["two-displays"], examples["lost-update"], "begin x := 1 end.\n"];
  const edit = async (from, to) => {
    for (let at = from; at < to; at++) {
      await tab.value(`(async () => { const it = document.querySelector('.CodeMirror').CodeMirror; it.setValue(''); it.replaceSelection(${JSON.stringify(sources[at % 3])} + '"${at}"'); document.getElementById('run').click(); await new Promise((done) => { const look = () => document.body.dataset.stale || document.body.dataset.busy || document.querySelector('#panel[aria-busy]') ? setTimeout(look, 2) : done(); setTimeout(look, 2); }); })()`);
    }
  };
  await edit(0, edits / 4);
  await tab.call("HeapProfiler.collectGarbage");
  const before = await memory(browser);
  const began = performance.now();
  await edit(edits / 4, edits);
  await tab.call("HeapProfiler.collectGarbage");
  await sleep(500);
  const after = await memory(browser);
  check(`${edits} edits in a row leave memory as it was`, after < before * 1.25 + 40, `${Math.round(before)} MB after ${edits / 4}, ${Math.round(after)} MB at the end; ${((performance.now() - began) / (edits * 0.75)).toFixed(1)} ms each`);
}

async function isUsableByAll(tab, name) {
  const nameless = await tab.value(`(() => [...document.querySelectorAll('button, input, select, textarea, iframe, [role=tab], [role=region], svg[role=img]')].filter((it) => it.offsetParent || it.tagName === 'svg').filter((it) => !(it.getAttribute('aria-label') || it.getAttribute('title') || it.getAttribute('aria-labelledby') || it.textContent.trim() || it.labels?.[0]?.textContent.trim())).map((it) => it.outerHTML.slice(0, 120)))()`);
  const { nodes } = await tab.call("Accessibility.getFullAXTree");
  const roles = new Set(["button", "link", "textbox", "searchbox", "checkbox", "combobox", "tab", "img", "image", "Iframe", "region"]);
  const unnamed = nodes.filter((it) => !it.ignored && roles.has(it.role?.value) && !(it.name?.value ?? "").trim()).map((it) => it.role.value);
  check(`${name}: no control without a name`, nameless.length === 0 && unnamed.length === 0, [...nameless, ...unnamed].join(" | "));
  check(`${name}: nothing scrolls sideways`, await tab.value("document.documentElement.scrollWidth <= innerWidth && document.getElementById('panel').scrollWidth <= document.getElementById('panel').clientWidth"));
}

async function worksByKeysAlone(tab) {
  await tab.value("document.querySelector('.CodeMirror').CodeMirror.focus()");
  await tab.key("Escape");
  await tab.key("Tab");
  check("Escape and then Tab leaves the editor", !(await tab.value("document.querySelector('.CodeMirror').contains(document.activeElement)")));
  await tab.key("F6");
  await tab.value("document.getElementById('tab-outcomes').focus()");
  await tab.key("ArrowRight");
  await shown(tab);
  check("arrows go through the views", (await tab.value("document.activeElement.id")) === "tab-picture" && (await tab.value("document.body.dataset.view")) === "picture");
  await tab.key("?", { code: "Slash", text: "?", number: 191 });
  check("a list of keys", await tab.value("document.getElementById('dialog').open && document.querySelectorAll('#dialog kbd').length > 8"));
  const about = await textOf(tab, "#dialog");
  check("version and checksum", about.includes(/name="cpx-version" content="([^"]*)"/.exec(text)[1]) && about.includes(/name="cpx-sources" content="([^"]*)"/.exec(text)[1]));
  await tab.key("Escape");
  await tab.click("#programs > button");
  await tab.key("ArrowDown");
  await tab.key("ArrowDown");
  check("arrows go through the programs", await tab.value("document.activeElement.classList.contains('item')"));
  await tab.key("Escape");
  check("Escape closes a menu, and the focus goes back", await tab.value("document.activeElement.classList.contains('picker')"));
}

const HOSTILE = `"</script><img src=x onerror=alert(1)><svg onload=alert(2)> & <b>. Options: --choices 3"
var a: integer;
begin a := 1; "(* assert a = 2 *) <img src=x onerror=alert(3)>" display(a) end.
`;

async function keepsHostileTextAsText(tab) {
  await view(tab, "Outcomes");
  await write(tab, HOSTILE);
  for (const name of ["Outcomes", "Picture", "Trace", "Play", "Any length"]) await view(tab, name);
  await tab.click("#programs > button");
  await sleep(100);
  check("hostile text stays text", (await count(tab, "img, #panel script, #programs-panel img, #programs-panel svg, #panel [onload], #panel [onerror]")) === 0 && (await tab.value("document.getElementById('programs-panel').textContent")).includes("<img src=x onerror=alert(1)>"));
  await tab.key("Escape");
}

async function opensFiles(tab) {
  writeFileSync(join(work, "mine & yours.cp"), "begin display(7) end.\r\n");
  const { root } = await tab.call("DOM.getDocument");
  const { nodeId } = await tab.call("DOM.querySelector", { nodeId: root.nodeId, selector: "#file" });
  await tab.call("DOM.setFileInputFiles", { nodeId, files: [join(work, "mine & yours.cp")] });
  await shown(tab, "document.getElementById('program-name').textContent.startsWith('mine')");
  check("a file is opened", (await source(tab)) === "begin display(7) end.\n");
  await drop(tab, "dropped.cp", "begin display(8) end.");
  await shown(tab, "document.getElementById('program-name').textContent === 'dropped.cp'");
  check("a file is dropped", (await source(tab)) === "begin display(8) end.");
  await tab.call("Page.setDownloadBehavior", { behavior: "allow", downloadPath: work });
  await tab.click("#save-file");
  const saved = () => { try { return readFileSync(join(work, "dropped.cp"), "utf8"); } catch { return ""; } };
  for (let tries = 0; tries < 200 && !saved(); tries++) await sleep(50);
  check("and saved", saved() === "begin display(8) end.");
}

// The module as the page has it, with other bytes.
const packedModule = (bytes) => text.replace(within("program"), gzipSync(bytes).toString("base64"));

// A module whose start calls itself without end.
const ENDLESS_CALLS = Uint8Array.from([0, 97, 115, 109, 1, 0, 0, 0, 1, 5, 1, 96, 0, 1, 127, 3, 2, 1, 0, 5, 3, 1, 0, 1, 7, 18, 2, 6, 109, 101, 109, 111, 114, 121, 2, 0, 5, 115, 116, 97, 114, 116, 0, 0, 10, 6, 1, 4, 0, 16, 0, 11]);

// The same module with no more memory than it begins with, so that an answer does not fit. The limit keeps its length.
function withLittleMemory() {
  const bytes = gunzipSync(Buffer.from(within("program"), "base64"));
  const number = (at) => { let value = 0, shift = 0, end = at; do value |= (bytes[end] & 127) << shift, shift += 7; while (bytes[end++] & 128); return [value >>> 0, end]; };
  let at = 8;
  for (;;) {
    const kind = bytes[at], [length, from] = number(at + 1);
    if (kind !== 5) { at = from + length; continue; }
    const [least, rest] = number(from + 2), [, end] = number(rest);
    for (let place = rest, value = least; place < end; place++, value >>= 7) bytes[place] = (value & 127) | (place + 1 < end ? 128 : 0);
    return bytes;
  }
}

async function saysWhatIsBroken(browser) {
  const late = { "a stack that is too deep": [packedModule(ENDLESS_CALLS), "nested too deep"], "memory that is refused": [packedModule(withLittleMemory()), "not enough memory"] };
  for (const [what, [other, sentence]] of Object.entries(late)) {
    const path = join(work, "other.html");
    writeFileSync(path, other);
    const tab = await browser.tab();
    await tab.open(pathToFileURL(path).href);
    await tab.until(`document.getElementById('panel')?.innerText.includes(${JSON.stringify(sentence)})`, 30000).catch(() => {});
    check(`${what} ends as a sentence`, (await textOf(tab, "#panel")).includes(sentence) && tab.faults.length === 0, (await textOf(tab, "#panel")).replaceAll("\n", " "));
    await tab.close();
  }
  const variants = {
    "a broken module": [text.replace(within("program"), within("program").slice(0, 4000)), "is broken"],
    "a module that is none": [text.replace(within("program"), "AAAA"), "is broken"],
    "a browser without workers": [text, "too old", "delete globalThis.Worker"],
    "a browser without WebAssembly": [text, "too old", "delete globalThis.WebAssembly"],
    "a browser without vectors": [text, "too old", "WebAssembly.validate = () => false"],
    "a browser that starts no worker": [text, "worker", "globalThis.Worker = class { constructor() { throw new Error('no worker is started here'); } }"],
  };
  for (const [what, [broken, sentence, before]] of Object.entries(variants)) {
    const path = join(work, "broken.html");
    writeFileSync(path, broken);
    const tab = await browser.tab();
    if (before) await tab.call("Page.addScriptToEvaluateOnNewDocument", { source: before });
    await tab.open(pathToFileURL(path).href);
    await tab.until("document.body?.dataset.ready === 'no'", 20000).catch(() => {});
    check(`${what} ends as a sentence`, (await textOf(tab, "#panel")).includes(sentence), (await textOf(tab, "#panel")).replaceAll("\n", " "));
    await tab.close();
  }
}

const SIZES = [["1440", 1440, 900], ["1024", 1024, 768], ["390", 390, 844]];

async function takesPictures(browser) {
  const all = [...SIZES.map((size) => [...size, {}]), ["1440-dark", 1440, 900, { dark: true }], ["390-dark", 390, 844, { dark: true }], ["1440-forced", 1440, 900, { forced: true }]];
  // In a hurry the widest and the narrowest are enough.
  const looks = isShort && !folder ? all.filter(([name]) => name === "1440" || name === "390") : all;
  for (const [name, width, height, how] of looks) {
    const tab = await opened(browser, { width, height, ...how });
    await forget(tab);
    const shot = async (what) => { await sleep(150); if (folder) await tab.picture(join(folder, `${name}-${what}.png`)); };
    await shot("outcomes");
    await isUsableByAll(tab, `${name} outcomes`);
    await tab.click("#panel .card.bad .way button", "Picture");
    await shown(tab, "document.querySelector('#panel svg')");
    await shot("picture");
    for (const [tabName, what] of [["Trace", "trace"], ["Play", "play"], ["Expect", "expect"], ["Any length", "ends"]]) {
      await view(tab, tabName);
      if (what === "play") { await frameOf(tab); await sleep(300); }
      if (what === "expect") { await tab.click("#panel .chip", "never all-waiting"); await shown(tab, "document.querySelector('.answers .card')"); }
      await shot(what);
      await isUsableByAll(tab, `${name} ${what}`);
    }
    await tab.click("#programs > button");
    await shot("programs");
    await tab.key("Escape");
    if (width < 820) { await tab.click("#more > button"); await tab.click("#open-options"); } else await tab.click("#options > button");
    await shot("options");
    await isUsableByAll(tab, `${name} options`);
    await tab.key("Escape");
    if (width < 1180) { await tab.click("#more > button"); await shot("more"); }
    await tab.click("#show-keys");
    await shot("keys");
    await tab.key("Escape");
    await view(tab, "Outcomes");
    if (width < 820) await tab.click("#tabs button", "Program");
    await write(tab, "type m = monitor;\n  var q: queue;\nbegin end;\nvar x: m; n: integer;\nbegin\n  init x;\n  n := true\nend.\n");
    await shown(tab, "document.querySelector('#problems.bad')");
    await tab.value("document.querySelector('#problems summary').click()");
    await shot("refusal");
    if (width < 820) { await isUsableByAll(tab, `${name} program`); await view(tab, "Outcomes"); await shot("refused"); }
    await tab.value("localStorage.clear()");
    await choose(tab, "buffer-off-by-one");
    await view(tab, "Outcomes");
    await shot("run-error");
    await choose(tab, "readers-first-endless");
    await shot("waits");
    await tab.value("localStorage.clear()");
    check(`${name}: no fault of a script, no request`, tab.faults.length === 0 && tab.requests.length === 0, [...tab.faults, ...tab.requests].join(" | "));
    await tab.close();
  }
}

async function prints(browser) {
  const tab = await opened(browser);
  await tab.media({ print: true });
  await sleep(100);
  check("on paper stand the program and the answer", (await tab.value("getComputedStyle(document.getElementById('printed-program')).display")) === "block" && (await textOf(tab, "#printed-program")).includes("  33  end.") && (await tab.value("getComputedStyle(document.getElementById('top')).display")) === "none");
  const pages = (await tab.paper(folder && join(folder, "print-outcomes.pdf"))).toString("latin1").split("/Type /Page\n").length - 1;
  check("of a few pages", pages >= 1 && pages <= 4, `${pages}`);
  if (folder) await tab.picture(join(folder, "print-outcomes.png"));
  await tab.media({});
  await tab.click("#panel .card.bad .way button", "Picture");
  await shown(tab, "document.querySelector('#panel svg')");
  await tab.paper(folder && join(folder, "print-picture.pdf"));
  await tab.close();
}

async function groupsMany(tab) {
  const many = `type p = process(n: integer);\nbegin display(n) end;\nvar a: array [1..5] of p; i: integer;\nbegin init a[1](1), a[2](2), a[3](3), a[4](4), a[5](5) end.\n`;
  await tab.click("#options > button");
  await tab.click("#options-usual");
  await tab.key("Escape");
  await write(tab, many);
  await view(tab, "Outcomes");
  check("more than a hundred outcomes are grouped and cut, and it is said", (await textOf(tab, "#panel .note")).includes("more than 100 outcomes") && (await count(tab, "#panel .card")) === 20 && (await textOf(tab, "#panel .group")).includes("20 outcomes of 120 are shown."), await textOf(tab, "#panel .total"));
  await tab.click("#panel .group button", "Show 100 more");
  check("and shown where they are asked for", (await count(tab, "#panel .card")) === 120);
}

const browser = await Browser.start();
try {
  await opensAtOnce(browser);
  const first = await opened(browser);
  for (const step of [opensAndAnswers, showsSchedules, answersExpectations, refuses]) await step(first);
  await groupsMany(first);
  await opensFiles(first);
  await keepsHostileTextAsText(first);
  await worksByKeysAlone(first);
  await keepsDrafts(first);
  await shares(browser, first);
  await showsWhatIsGiven(browser);
  await stops(first);
  await bearsManyEdits(browser, first, isShort ? 100 : 1000);
  check("no faults of scripts", first.faults.length === 0, first.faults.join(" | "));
  check("no request to anywhere", first.requests.length === 0, first.requests.join(" | "));
  await forget(first);
  await first.close();
  await saysWhatIsBroken(browser);
  await prints(browser);
  await takesPictures(browser);
} catch (it) {
  check(String(it?.stack ?? it), false);
} finally {
  await browser.close();
  rmSync(work, { recursive: true, force: true });
}
console.log(failed ? `${failed} failed` : "all as it should be");
process.exit(failed ? 1 : 0);

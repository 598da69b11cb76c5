// chromium.mjs: a headless chromium without network, by the DevTools protocol over a pipe: node alone is needed.
import { spawn } from "node:child_process";
import { mkdtempSync, rmSync, writeFileSync } from "node:fs";
import { tmpdir } from "node:os";
import { join } from "node:path";

const FLAGS = ["--headless=new", "--no-sandbox", "--disable-gpu", "--no-first-run", "--disable-background-networking", "--disable-component-update", "--disable-sync", "--proxy-server=127.0.0.1:9", "--host-resolver-rules=MAP * ~NOTFOUND", "--hide-scrollbars", "--remote-debugging-pipe"];
const LONGEST = 120000;

export const sleep = (ms) => new Promise((done) => setTimeout(done, ms));

export class Browser {
  static async start(more = []) {
    const it = new Browser();
    it.profile = mkdtempSync(join(tmpdir(), "cpx-chromium-"));
    it.process = spawn("chromium", [...FLAGS, ...more, `--user-data-dir=${it.profile}`], { stdio: ["ignore", "ignore", "ignore", "pipe", "pipe"] });
    it.waiting = new Map();
    it.tabs = new Map();
    it.next = 0;
    let text = "";
    it.process.stdio[4].setEncoding("utf8").on("data", (part) => {
      text += part;
      const all = text.split("\0");
      text = all.pop();
      for (const message of all) it.hear(JSON.parse(message));
    });
    await it.call("Browser.getVersion");
    return it;
  }

  hear(message) {
    const waiting = this.waiting.get(message.id);
    if (waiting) {
      this.waiting.delete(message.id);
      if (message.error) waiting.fail(new Error(`${waiting.method}: ${message.error.message}`));
      else waiting.done(message.result);
      return;
    }
    this.tabs.get(message.sessionId)?.hear(message);
  }

  call(method, params = {}, sessionId = undefined) {
    return new Promise((done, fail) => {
      const id = ++this.next;
      this.waiting.set(id, { done, fail, method });
      this.process.stdio[3].write(`${JSON.stringify({ id, method, params, sessionId })}\0`);
    });
  }

  async tab({ width = 1440, height = 900, dark = false, forced = false } = {}) {
    const { targetId } = await this.call("Target.createTarget", { url: "about:blank" });
    const { sessionId } = await this.call("Target.attachToTarget", { targetId, flatten: true });
    const it = new Tab(this, sessionId, targetId);
    this.tabs.set(sessionId, it);
    for (const name of ["Page", "Runtime", "Log", "Network", "Performance"]) await it.call(`${name}.enable`);
    await it.call("Network.emulateNetworkConditions", { offline: true, latency: 0, downloadThroughput: 0, uploadThroughput: 0 });
    await it.call("Target.setAutoAttach", { autoAttach: true, waitForDebuggerOnStart: false, flatten: true });
    await it.size(width, height);
    await it.media({ dark, forced });
    return it;
  }

  async close() {
    const ended = new Promise((done) => this.process.once("exit", done));
    await Promise.race([this.call("Browser.close").catch(() => {}), sleep(2000)]);
    await Promise.race([ended, sleep(3000)]);
    this.process.kill("SIGKILL");
    // Its processes may write there for a moment after it has ended.
    for (let tries = 0; tries < 10; tries++) {
      try {
        rmSync(this.profile, { recursive: true, force: true });
        return;
      } catch {
        await sleep(300);
      }
    }
  }
}

class Tab {
  constructor(browser, session, target) {
    Object.assign(this, { browser, session, target, faults: [], requests: [], frames: new Map() });
  }

  hear({ method, params, sessionId }) {
    if (method === "Runtime.exceptionThrown") this.faults.push(params.exceptionDetails.exception?.description ?? params.exceptionDetails.text);
    if (method === "Log.entryAdded" && params.entry.level === "error") this.faults.push(`${params.entry.text} ${params.entry.url ?? ""}`);
    if (method === "Network.requestWillBeSent" && !/^(file|blob|data|about):/.test(params.request.url)) this.requests.push(params.request.url);
    // Frames and workers are sessions of their own, and are listened to as well.
    if (method === "Target.attachedToTarget") {
      this.frames.set(params.sessionId, params.targetInfo);
      this.browser.tabs.set(params.sessionId, this);
      const more = (name, given) => this.browser.call(name, given, params.sessionId).catch(() => {});
      void more("Runtime.enable"); void more("Network.enable"); void more("Log.enable");
    }
    if (method === "Target.detachedFromTarget") this.frames.delete(params.sessionId);
  }

  call(method, params = {}) {
    return this.browser.call(method, params, this.session);
  }

  async size(width, height) {
    await this.call("Emulation.setDeviceMetricsOverride", { width, height, deviceScaleFactor: 1, mobile: width < 600 });
    await this.call("Emulation.setTouchEmulationEnabled", { enabled: width < 600 });
  }

  media({ dark = false, forced = false, print = false }) {
    return this.call("Emulation.setEmulatedMedia", { media: print ? "print" : "", features: [{ name: "prefers-color-scheme", value: dark ? "dark" : "light" }, { name: "forced-colors", value: forced ? "active" : "none" }] });
  }

  open(address) {
    return this.call("Page.navigate", { url: address });
  }

  // The value of an expression in the page, or in the frame of a session.
  async value(expression, session = this.session) {
    const { result, exceptionDetails } = await this.browser.call("Runtime.evaluate", { expression, awaitPromise: true, returnByValue: true, userGesture: true }, session);
    if (exceptionDetails) throw new Error(`${expression.slice(0, 200)}: ${exceptionDetails.exception?.description ?? exceptionDetails.text}`);
    return result.value;
  }

  async until(expression, longest = LONGEST, session = this.session) {
    const began = performance.now();
    for (;;) {
      if (await this.value(expression, session).catch(() => false)) return performance.now() - began;
      if (performance.now() - began > longest) throw new Error(`never: ${expression}`);
      await sleep(15);
    }
  }

  // The middle of an element, scrolled into sight.
  async place(selector, text) {
    const found = await this.value(`(() => { const all = [...document.querySelectorAll(${JSON.stringify(selector)})].filter((it) => it.offsetParent && (${JSON.stringify(text ?? null)} === null || it.textContent.trim() === ${JSON.stringify(text ?? null)})); const it = all[0]; if (!it) return null; it.scrollIntoView({ block: "nearest", inline: "nearest" }); const { x, y, width, height } = it.getBoundingClientRect(); return { x: x + width / 2, y: y + height / 2 }; })()`);
    if (!found) throw new Error(`not there: ${selector} ${text ?? ""}`);
    return found;
  }

  async click(selector, text) {
    const { x, y } = await this.place(selector, text);
    for (const type of ["mousePressed", "mouseReleased"]) await this.call("Input.dispatchMouseEvent", { type, x, y, button: "left", clickCount: 1 });
  }

  async key(key, { ctrl = false, code = key, text = undefined, number = undefined } = {}) {
    const windowsVirtualKeyCode = number ?? { Enter: 13, Escape: 27, Tab: 9, ArrowDown: 40, ArrowUp: 38, ArrowRight: 39, ArrowLeft: 37, Home: 36, End: 35, F6: 117, F8: 119 }[key] ?? key.toUpperCase().charCodeAt(0);
    for (const type of ["keyDown", "keyUp"]) await this.call("Input.dispatchKeyEvent", { type, key, code, windowsVirtualKeyCode, modifiers: ctrl ? 2 : 0, ...(text && type === "keyDown" ? { text } : {}) });
  }

  type(text) {
    return this.call("Input.insertText", { text });
  }

  async picture(file) {
    const { data } = await this.call("Page.captureScreenshot", { format: "png" });
    writeFileSync(file, Buffer.from(data, "base64"));
  }

  async paper(file) {
    const { data } = await this.call("Page.printToPDF", { printBackground: false });
    if (file) writeFileSync(file, Buffer.from(data, "base64"));
    return Buffer.from(data, "base64");
  }

  async close() {
    await this.browser.call("Target.closeTarget", { targetId: this.target });
  }
}

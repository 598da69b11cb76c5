// A page without a browser: as much of a document as the script of a page uses, driven by lines of JSON. Nothing is laid out, so sizes are made up.
// Each line is [operation, ..], each answer {value} or {fault}: "load" path hash, "do" expression, "press" key, "click" selector number, "back", "print".
"use strict";
const fs = require("fs");
const vm = require("vm");
const readline = require("readline");

const VOID = ["meta", "input"];
const FOCUSABLE = ["button", "input", "summary"];
const ENTITIES = { lt: "<", gt: ">", amp: "&", quot: '"' };
const decoded = text => text.replace(/&(?:#(\d+)|(\w+));/g, (_, code, name) => code ? String.fromCodePoint(+code) : ENTITIES[name]);

class Words {
  constructor(text) {
    this.textContent = String(text);
  }
}

class Element {
  constructor(tag, page) {
    Object.assign(this, { tag, page, nodes: [], attributes: {}, listeners: {}, parentNode: null, value: "", hidden: false, open: false, disabled: false, scrollTop: 0, scrollLeft: 0 });
    this.style = { setProperty() {} };
    Object.assign(this, { offsetTop: 0, offsetHeight: 40, scrollHeight: 0, scrollWidth: 0, clientHeight: 700, clientWidth: 600 });
  }
  get id() { return this.attributes.id || ""; }
  get className() { return this.attributes.class || ""; }
  set className(value) { this.attributes.class = value; }
  get children() { return this.nodes.filter(node => node instanceof Element); }
  get firstChild() { return this.nodes[0]; }
  get textContent() { return this.nodes.map(node => node.textContent).join(""); }
  set textContent(text) { this.replaceChildren(text); }
  getAttribute(name) { return name in this.attributes ? this.attributes[name] : null; }
  setAttribute(name, value) {
    this.attributes[name] = String(value);
    if (name === "id") this.page.ids.set(this.id, this);
  }
  removeAttribute(name) { delete this.attributes[name]; }
  addEventListener(kind, listener) { (this.listeners[kind] = this.listeners[kind] || []).push(listener); }
  append(...nodes) {
    for (const node of nodes) {
      const child = node instanceof Element || node instanceof Words ? node : new Words(node);
      child.parentNode = this;
      this.nodes.push(child);
    }
  }
  replaceChildren(...nodes) {
    this.nodes.forEach(node => node.parentNode = null);
    this.nodes = [];
    this.append(...nodes);
  }
  remove() {
    const { nodes } = this.parentNode;
    nodes.splice(nodes.indexOf(this), 1);
    this.parentNode = null;
  }
  after(other) {
    const { nodes } = this.parentNode;
    nodes.splice(nodes.indexOf(this) + 1, 0, other);
    other.parentNode = this.parentNode;
  }
  cloneNode() { return new Element(this.tag, this.page); }
  contains(other) {
    let up = other;
    while (up && up !== this) up = up.parentNode;
    return up === this;
  }
  focus() { if (!this.disabled) this.page.focused = this; }
  blur() { this.page.focused = null; }
  select() { this.focus(); }
  getBoundingClientRect() { return { top: 0, left: 0, width: 0, height: 0 }; }
  isFocusable() { return FOCUSABLE.includes(this.tag) || "tabindex" in this.attributes; }
  find(holds) {
    for (const node of this.nodes) {
      const found = node instanceof Element && (holds(node) ? node : node.find(holds));
      if (found) return found;
    }
    return null;
  }
  all() { return this.children.flatMap(child => [child, ...child.all()]); }
  querySelectorAll(selector) { return this.all().filter(element => selector.split(",").some(one => fits(element, one.trim()))); }
  querySelector(selector) { return this.find(element => selector.split(",").some(one => fits(element, one.trim()))); }
}

// A selector of tags, ids, classes, attributes, :not(.class) and :nth-of-type(n), joined by blanks or >.
function fits(element, selector) {
  const found = /^(?:(.*?)(\s*>\s*|\s+))?([^\s>]+)$/.exec(selector);
  const [, before, joint, simple] = found;
  if (!simple.match(/:not\([^)]*\)|:nth-of-type\(\d+\)|\[[^\]]*\]|[#.]?[\w-]+/g).every(part => fitsPart(element, part))) return false;
  if (!before) return true;
  for (let up = element.parentNode; up; up = up.parentNode) {
    if (fits(up, before)) return true;
    if (joint.includes(">")) return false;
  }
  return false;
}

function fitsPart(element, part) {
  const classes = element.className.split(" ");
  if (part.startsWith(":not")) return !fitsPart(element, part.slice(5, -1));
  if (part.startsWith(":nth")) return element.parentNode.children.filter(({ tag }) => tag === element.tag)[parseInt(part.slice(13), 10) - 1] === element;
  if (part[0] === "[") {
    const [name, value] = part.slice(1, -1).replace(/"/g, "").split("=");
    return name in element.attributes && (value === undefined || element.attributes[name] === value);
  }
  return part[0] === "#" ? element.id === part.slice(1) : part[0] === "." ? classes.includes(part.slice(1)) : element.tag === part;
}

class Page {
  constructor(path, hash) {
    this.focused = null;
    this.ids = new Map(); // The newest element of each, which may not stand in the document yet.
    this.listeners = {};
    this.entries = [hash];
    this.entry = 0;
    this.faults = [];
    this.root = this.parse(fs.readFileSync(path, "ascii"));
    this.body = this.root.querySelector("body");
    this.context = vm.createContext(this.window());
    try {
      vm.runInContext(this.root.querySelectorAll("script").at(-1).textContent, this.context);
    } catch (error) {
      this.faults.push(String(error.stack).slice(0, 300));
    }
  }

  parse(text) {
    const root = new Element("#document", this);
    let open = root;
    const sign = /<!DOCTYPE[^>]*>|<(\/?)([\w-]+)((?:\s+[\w-]+(?:="[^"]*")?)*)\s*(\/?)>/g;
    for (let at = 0; ;) {
      sign.lastIndex = at;
      const found = sign.exec(text);
      if (!found) return root;
      if (found.index > at) open.append(decoded(text.slice(at, found.index)));
      at = sign.lastIndex;
      const [, closes, tag, attributes, isEmpty] = found;
      if (!tag) continue;
      if (closes) {
        open = open.parentNode;
        continue;
      }
      const element = new Element(tag, this);
      for (const [, name, value] of attributes.matchAll(/([\w-]+)(?:="([^"]*)")?/g)) element.setAttribute(name, decoded(value || ""));
      open.append(element);
      if (tag === "script" || tag === "style") {
        const end = text.indexOf(`</${tag}>`, at);
        element.append(text.slice(at, end));
        at = end + tag.length + 3;
      } else if (!VOID.includes(tag) && !isEmpty) open = element;
    }
  }

  withId(id) {
    const newest = this.ids.get(id);
    if (newest && this.root.contains(newest)) return newest;
    return this.root.find(element => element.id === id);
  }

  window() {
    const page = this;
    const create = tag => tag === "canvas" ? { getContext: () => ({ measureText: text => ({ width: 7 * text.length }) }) } : new Element(tag, page);
    const document = {
      title: "",
      get activeElement() { return page.active(); },
      getElementById: id => page.withId(id),
      querySelector: selector => page.root.querySelector(selector),
      querySelectorAll: selector => page.root.querySelectorAll(selector),
      createElement: create,
      createElementNS: (_, tag) => create(tag),
      execCommand: () => true,
    };
    const location = {
      get hash() { return page.entries[page.entry]; },
      set hash(value) {
        page.enter(value);
        page.tell("popstate", {});
      },
    };
    const history = {
      pushState: (_, __, place) => page.enter(place),
      replaceState: (_, __, place) => page.entries[page.entry] = place,
    };
    class Event {
      constructor(type) { this.type = type; }
    }
    const addEventListener = (kind, listener) => (page.listeners[kind] = page.listeners[kind] || []).push(listener);
    Element.prototype.dispatchEvent = function (event) { page.dispatch(this, event.type, {}); };
    return { document, location, history, Event, addEventListener, getComputedStyle: () => ({ fontSize: "15px" }), console };
  }

  enter(place) {
    this.entries = [...this.entries.slice(0, this.entry + 1), place];
    this.entry++;
  }

  tell(kind, event) {
    for (const listener of this.listeners[kind] || []) {
      try {
        listener(event);
      } catch (error) {
        this.faults.push(String(error.stack).slice(0, 300));
      }
    }
  }

  // An event goes up from its target to the window. The answer is whether nobody prevented what usually follows.
  dispatch(target, type, more) {
    let isUsual = true;
    const event = { type, target, ctrlKey: false, altKey: false, metaKey: false, repeat: false, preventDefault: () => isUsual = false, ...more };
    for (let up = target; up; up = up.parentNode) {
      for (const listener of up.listeners[type] || []) {
        try {
          listener(event);
        } catch (error) {
          this.faults.push(String(error.stack).slice(0, 300));
        }
      }
    }
    this.tell(type, event);
    return isUsual;
  }

  // What has gone or is disabled has the focus no more.
  active() { return this.focused && !this.focused.disabled && this.root.contains(this.focused) ? this.focused : this.body; }

  press(key) {
    const target = this.active();
    const isUsual = this.dispatch(target, "keydown", { key });
    if (isUsual && target.tag === "button" && (key === "Enter" || key === " ")) this.dispatch(target, "click", {});
    if (isUsual && target.tag === "input" && key.length === 1) target.value += key;
    this.dispatch(this.active(), "keyup", { key });
  }

  click(selector, number) {
    const element = this.root.querySelectorAll(selector)[number];
    let up = element;
    while (up && !up.isFocusable()) up = up.parentNode;
    this.focused = up;
    this.dispatch(element, "mouseup", {});
    this.dispatch(element, "click", {});
  }

  back() {
    this.entry = Math.max(0, this.entry - 1);
    this.tell("popstate", {});
  }
}

let page = null;
const OPERATIONS = {
  load: (path, hash) => {
    page = new Page(path, hash);
    return null;
  },
  do: expression => vm.runInContext(expression, page.context),
  press: key => page.press(key),
  click: (selector, number) => page.click(selector, number),
  back: () => page.back(),
  print: () => page.tell("beforeprint", {}),
  faults: () => page.faults.splice(0),
};

readline.createInterface({ input: process.stdin }).on("line", line => {
  const [operation, ...words] = JSON.parse(line);
  let answer;
  try {
    const value = OPERATIONS[operation](...words);
    answer = { value: value === undefined ? null : value };
  } catch (error) {
    answer = { fault: String(error.stack).slice(0, 300) };
  }
  process.stdout.write(JSON.stringify(answer) + "\n");
});

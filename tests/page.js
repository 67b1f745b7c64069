// Uses a page of tools/page, for tests/page: in a browser, as a second script of the page, or with node, where `Stub` simulates
// the parts of a browser that the page's script needs. `node page.js PAGE STEPS` prints the result as JSON.
//
// `play` takes steps, each a word and its arguments, and returns the contents of the screen after each of them.
"use strict";

async function play(window, steps) {
  const { document, location } = window;
  const element = (name) => document.getElementById(name);
  const rows = () => [...element("rows").children];
  const row = (path) => rows().find((it) => it.children[1].textContent.trim() === path);
  const press = (target, key) => target.dispatchEvent(new window.KeyboardEvent("keydown", { key, bubbles: true, cancelable: true }));
  const linksIn = (made) => [...made.children].flatMap((it) => it.tagName === "A" ? [it, ...linksIn(it)] : linksIn(it));
  const chosen = () => {
    const found = rows().find((it) => it.getAttribute("aria-selected") === "true");
    return [found?.children[1].textContent.trim(), element("chosen")?.getAttribute("aria-label") ?? null, decodeURIComponent(location.hash)];
  };
  const does = {
    rows: () => rows().map((it) => it.textContent),
    marks: () => rows().flatMap((it) => [...it.children]).filter((it) => it.getAttribute("class").includes("error")).map((it) => it.textContent),
    levels: () => rows().map((it) => Number(it.getAttribute("aria-level"))),
    fold: (path) => row(path).children[0].click(),
    value: (path, name) => [...row(path).children].find((it) => it.textContent.replace(/^[→✗] /, "").startsWith(`${name}=`)).click(),
    key: (key) => { press(element("tree"), key); },
    keyAnywhere: (key) => { press(document.body, key); },
    link: (text) => linksIn(element("chosen") ?? element("details")).find((it) => it.textContent === text).click(),
    click: (name) => element(name).click(),
    search: (text, field) => {
      element("text").value = text;
      element("field").value = field;
      element("next").click();
    },
    address: async (hash) => {
      location.hash = hash;
      await new Promise((done) => window.setTimeout(done, 50));
    },
    chosen,
    found: () => element("found").textContent,
    facts: () => element("facts").textContent,
    section: () => element("chosen").textContent,
    details: () => element("details").textContent,
    mark: () => [...element("words").children].map((it) => it.textContent),
    count: () => rows().length,
    height: () => {
      const [first, second] = rows().map((it) => parseFloat(it.style.top));
      return Math.round(parseFloat(element("rows").style.height) / (second - first));
    },
    title: () => document.title,
    intruders: () => [window.intruder ?? null, document.querySelectorAll("img, b, iframe").length],
    focus: () => document.activeElement?.getAttribute("id") ?? null,
  };
  const result = [];
  for (const [word, ...words] of steps) {
    const shown = await does[word](...words);
    if (shown !== undefined) result.push(shown);
  }
  return result;
}

// Simulates the elements with ids of a page, and the parts of a browser that its script needs.
class Stub {
  constructor(page) {
    const stub = this;
    class Element {
      constructor(tag) {
        this.tagName = tag.toUpperCase();
        Object.assign(this, { attributes: {}, childNodes: [], listeners: {}, parent: null, hidden: false, value: "", scrollTop: 0 });
        this.style = { setProperty(name, value) { this[name] = value; } };
      }
      get children() { return this.childNodes.filter((it) => it instanceof Element); }
      get firstElementChild() { return this.children[0] ?? null; }
      get textContent() { return this.childNodes.map((it) => it.textContent).join(""); }
      set textContent(text) { this.replaceChildren(text); }
      get offsetHeight() { return 24; }
      get clientHeight() { return 600; }
      setAttribute(name, value) { this.attributes[name] = String(value); }
      getAttribute(name) { return this.attributes[name] ?? null; }
      append(...parts) {
        for (const it of parts) {
          const part = it instanceof Element ? it : { textContent: String(it), contains(other) { return other === this; } };
          part.parent = this;
          this.childNodes.push(part);
        }
      }
      replaceChildren(...parts) {
        for (const it of this.childNodes) it.parent = null;
        this.childNodes = [];
        this.append(...parts);
      }
      contains(other) {
        for (let it = other; it; it = it.parent) if (it === this) return true;
        return false;
      }
      querySelector(tag) { return all(this).find((it) => it.tagName === tag.toUpperCase()) ?? null; }
      querySelectorAll(tags) { return all(this).filter((it) => tags.toUpperCase().split(", ").includes(it.tagName)); }
      addEventListener(kind, does) { (this.listeners[kind] ??= []).push(does); }
      dispatchEvent(event) {
        event.target ??= this;
        for (let it = this; it && !event.isStopped; it = it.parent) for (const does of it.listeners[event.type] ?? []) does(event);
      }
      click() {
        this.dispatchEvent(new Event("click"));
        if (this.getAttribute("type") === "submit") stub.ids.search.dispatchEvent(new Event("submit"));
      }
      focus() { stub.document.activeElement = this; }
      scrollIntoView() {}
    }
    class Event {
      constructor(type, more = {}) { Object.assign(this, { type, isStopped: false, ...more }); }
      preventDefault() {}
      stopPropagation() { this.isStopped = true; }
    }
    const all = (made) => made.children.flatMap((it) => [it, ...all(it)]);
    this.ids = {};
    const root = new Element("html"), body = new Element("body");
    root.append(body);
    for (const [, tag, , id] of page.split('<script type="application/json"')[0].matchAll(/<(\w+)([^>]*?)\sid="(\w+)"/g)) {
      const made = this.ids[id] = new Element(tag);
      made.setAttribute("id", id);
      if (id !== "rows" && id !== "words") body.append(made);
    }
    this.ids.tree.append(this.ids.rows);
    this.ids.sentence.append(this.ids.words);
    this.ids.next.setAttribute("type", "submit");
    this.ids.data = new Element("script");
    this.ids.data.textContent = /<script type="application\/json" id="data">(.*?)<\/script>/s.exec(page)[1];
    this.document = Object.assign(root, {
      body, activeElement: body, title: /<title>(.*?)<\/title>/s.exec(page)[1],
      createElement: (tag) => new Element(tag),
      getElementById: (id) => this.ids[id] ?? all(root).find((it) => it.getAttribute("id") === id) ?? null,
    });
    this.hash = "";
    const listeners = new Element("window");
    Object.assign(this, {
      KeyboardEvent: Event, setTimeout,
      addEventListener: (kind, does) => listeners.addEventListener(kind, does),
      getSelection: () => ({ isCollapsed: false }),
      history: {
        replaceState: (_, __, hash) => { this.hash = hash; },
      },
      location: Object.defineProperty({}, "hash", {
        get: () => this.hash,
        set: (hash) => {
          if (hash === this.hash) return;
          this.hash = hash;
          setTimeout(() => listeners.dispatchEvent(new Event("hashchange")), 0);
        },
      }),
    });
  }
}

async function main() {
  const fs = require("fs"), vm = require("vm");
  const page = fs.readFileSync(process.argv[2], "utf8");
  const script = /<script>(.*?)<\/script>/s.exec(page)[1];
  const window = new Stub(page);
  const began = performance.now();
  vm.runInContext(script, vm.createContext(window));
  const took = performance.now() - began;
  const result = await play(window, JSON.parse(process.argv[3]));
  console.log(JSON.stringify({ took, result }));
}

if (typeof require === "function") main();

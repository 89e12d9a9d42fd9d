"use strict";
// A document for a page's scripts, as far as they use one, and a user: reads
// the page's ids, its flight and the user's steps from standard input.

const asked = JSON.parse(require("fs").readFileSync(0, "utf8"));

class Element {
  constructor(kind) {
    this.tagName = kind.toUpperCase();
    this.children = [];
    this.attributes = {};
    this.listeners = {};
    this.className = "";
    this.textContent = "";
    this.style = { setProperty(name, value) { this[name] = value; } };
    this.classList = { toggle: (name, on) => this.toggle(name, on) };
  }

  appendChild(child) {
    this.children.push(child);
    return child;
  }

  setAttribute(name, value) {
    this.attributes[name] = String(value);
  }

  addEventListener(kind, listener) {
    this.listeners[kind] = listener;
  }

  classes() {
    return this.className.split(" ").filter(Boolean);
  }

  toggle(name, on) {
    const others = this.classes().filter((other) => other !== name);
    this.className = (on ? others.concat(name) : others).join(" ");
  }
}

const byName = new Map(asked.ids.map((name) => [name, new Element("div")]));
const document = new Element("document");
document.getElementById = (name) => byName.get(name) || null;
document.createElement = (kind) => new Element(kind);
document.createElementNS = (space, kind) => new Element(kind);
const window = new Element("window");
const location = { hash: asked.hash };
const history = {
  replaceState(state, title, address) {
    if (asked.noAddress) {
      throw new Error("too many");
    }
    location.hash = address;
  },
};
byName.get("flight").textContent = asked.flight;

// What a user can do; each says whether the page kept the event for itself.
const DO = {
  key(key, more) {
    let kept = false;
    document.listeners.keydown({ key, target: new Element("body"), ...more, preventDefault() { kept = true; } });
    return kept;
  },
  keyInSelect: (key) => DO.key(key, { target: new Element("select") }),
  keyInField: (key) => DO.key(key, { target: Object.assign(new Element("input"), { type: "text" }) }),
  keyWithControl: (key) => DO.key(key, { ctrlKey: true }),
  click: (name) => byName.get(name).listeners.click({}),
  choose(value) { byName.get("sought").value = String(value); },
  slide(value) {
    byName.get("slider").value = String(value);
    byName.get("slider").listeners.input({});
  },
  field(kind, words) {
    byName.get(`at-${kind}`).value = words;
    byName.get(`at-${kind}`).listeners.change({});
  },
  address(hash) {
    location.hash = hash;
    window.listeners.hashchange({});
  },
};

// All elements below one, it among them.
function below(element) {
  return [element].concat(...element.children.map(below));
}

function places(elements, name) {
  return elements.map((element, place) => (element.classes().includes(name) ? place : -1)).filter((place) => place >= 0);
}

// What can be seen of the page.
function look(kept) {
  const text = (name) => byName.get(name).textContent;
  const inWindow = below(byName.get("window"));
  const slots = inWindow.filter((element) => element.classes().includes("slot"));
  const cards = byName.get("holdings").children, beside = byName.get("own").children;
  return {
    kept: kept === true, number: `${byName.get("at-call").value} ${text("calls")}`, address: location.hash,
    slot: `${byName.get("at-slot").value} ${text("slots")}`, slider: Number(byName.get("slider").value), plan: text("plan"),
    call: text("call"), answer: text("answer"), advice: text("advice"), rule: text("rule"), whose: text("whose"), where: text("where"),
    refused: byName.get("said").classes().includes("refused"),
    frames: inWindow.filter((element) => element.classes().includes("name")).map((element) => element.textContent),
    owners: slots.map((slot) => String(slot.textContent)),
    gone: places(slots, "gone"), current: places(slots, "cp"), about: places(slots, "new"),
    own: places(cards, "own"), full: places(cards, "full"), several: byName.get("said").classes().includes("several"),
    beside: beside.map((card, flow) => (card.hidden ? -1 : flow)).filter((flow) => flow >= 0),
    besideHolds: beside.filter((card) => !card.hidden).map((card) => card.children[card.children.length - 1].textContent),
    holds: cards.map((card) => card.children[card.children.length - 1].textContent),
    sought: byName.get("sought").children.map((option) => option.textContent),
  };
}

// The page's scripts stand behind this, and then this is called.
function lookAtEachStep() {
  const seen = [look(false)];
  asked.steps.forEach(([what, ...words]) => seen.push(look(DO[what](...words))));
  console.log(JSON.stringify(seen));
}

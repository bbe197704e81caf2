"use strict";
// All texts of objects come into the page as text nodes and attributes, and none as markup.
const data = JSON.parse(document.getElementById("data").textContent);
const FEW = 40, PICTURED = 20, LISTED = 100, NAMESPACE = "http://www.w3.org/2000/svg";

function element(name, attributes, ...children) {
  const made = document.createElement(name);
  for (const [key, value] of Object.entries(attributes || {})) made.setAttribute(key, value);
  made.append(...children.filter((it) => it !== null && it !== undefined));
  return made;
}
function drawn(name, attributes, ...children) {
  const made = document.createElementNS(NAMESPACE, name);
  for (const [key, value] of Object.entries(attributes)) made.setAttribute(key, value);
  made.append(...children);
  return made;
}
const plural = (count, name) => `${count} ${name}${count === 1 ? "" : "s"}`;
const short = (text, most) => (text.length > most ? text.slice(0, most - 1) + "…" : text);
const wrongOf = (conditions) => conditions.filter((it) => it.wrong);
const reasonsOf = (conditions) => [...new Set(wrongOf(conditions).map((it) => it.reason))];
const conditionOf = (conditions, type) => conditions.find((it) => it.type === type) || { status: "Unknown", reason: "" };
const isWrong = (route) => route.parents.some((it) => wrongOf(it.conditions).length > 0);

// What is shown: the words of the filter, and whether all or what is wrong alone.
const shown = { words: [], onlyWrong: false };
for (const route of data.routes) {
  route.text = JSON.stringify([route.key, route.hostnames, route.choice, route.backends.map((it) => [it.name, it.port, it.state]),
    route.parents.map((it) => [it.text, it.conditions.filter((one) => one.wrong)]), route.rows.map((it) => it.text)]).toLowerCase();
}
const fits = (route) => (!shown.onlyWrong || isWrong(route)) && shown.words.every((it) => route.text.includes(it));

function condition(conditions, type) {
  const found = conditionOf(conditions, type);
  return element("td", { class: `short ${found.status}` }, found.status);
}
function sentences(conditions) {
  return reasonsOf(conditions).map((it) => element("div", {}, element("b", {}, it), ": " + (data.sentences[it] || "")));
}

// The picture of a Gateway: four columns of boxes, with lines between.
const COLUMNS = [{ x: 4, width: 210 }, { x: 268, width: 230 }, { x: 560, width: 290 }, { x: 912, width: 270 }];
const HEIGHT = 40, STEP = 52, TOP = 30;

class Picture {
  constructor() {
    this.next = [TOP, TOP, TOP, TOP];
    this.lines = drawn("g", {});
    this.boxes = drawn("g", {});
  }
  box(column, name, below, state, act) {
    const { x, width } = COLUMNS[column], y = this.next[column], most = Math.floor(width / 7.9);
    this.next[column] += STEP;
    const group = drawn("g", { class: `box ${state}` + (act ? " link" : "") }, drawn("title", {}, `${name}\n${below}`),
      drawn("rect", { x, y, width, height: HEIGHT, rx: 6 }));
    for (const [text, at, size, kind] of [[name, 17, most, ""], [below, 33, Math.floor(width / 6.6), "small"]]) {
      const line = drawn("text", { x: x + 10, y: y + at, class: kind });
      line.textContent = short(text, size);
      group.append(line);
    }
    if (act) {
      group.setAttribute("tabindex", "0");
      group.setAttribute("role", "button");
      group.addEventListener("click", act);
      group.addEventListener("keydown", (it) => { if (it.key === "Enter") act(); });
    }
    this.boxes.append(group);
    return { column, y: y + HEIGHT / 2 };
  }
  line(from, to, state, name) {
    const start = COLUMNS[from.column].x + COLUMNS[from.column].width, end = COLUMNS[to.column].x, half = (start + end) / 2;
    const path = drawn("path", { d: `M${start} ${from.y}C${half} ${from.y} ${half} ${to.y} ${end} ${to.y}`, class: state });
    if (name) path.append(drawn("title", {}, name));
    this.lines.append(path);
  }
  finish(label) {
    const height = Math.max(...this.next), heads = ["Gateway", "Listeners", "Routes", "Services"];
    const svg = drawn("svg", { viewBox: `0 0 1190 ${height}`, width: 1190, height, role: "img", "aria-label": label });
    heads.forEach((text, column) => {
      const head = drawn("text", { x: COLUMNS[column].x, y: 16, class: "head" });
      head.textContent = text;
      svg.append(head);
    });
    svg.append(this.lines, this.boxes);
    return svg;
  }
}

function listenerBox(picture, listener) {
  const reasons = reasonsOf(listener.conditions);
  const known = [listener.hostname || (data.eventsKnown ? "any host" : null), plural(listener.routes, "Route")];
  return picture.box(1, `${listener.name}, port ${listener.port === null ? "not known" : listener.port}`,
    reasons.length ? reasons.join(", ") : known.filter(Boolean).join(", "), reasons.length ? "wrong" : "");
}

// The lines from listeners, or from the Gateway where none can be told, to a Route.
function joinRoute(picture, route, box, parents, gatewayBox, listenerBoxes) {
  for (const parent of parents) {
    const accepted = conditionOf(parent.conditions, "Accepted"), wrong = accepted.status !== "True";
    const names = parent.listeners.length ? parent.listeners : [parent.section];
    for (const name of names) {
      const from = listenerBoxes.get(name);
      picture.line(from || gatewayBox, box, (wrong ? "wrong broken" : "") + (from || wrong ? "" : " broken"),
        wrong ? `${route.key} isn't accepted: ${accepted.reason}` : from ? "" : "Which listeners it is attached to isn't known");
    }
  }
}

function joinServices(picture, route, box, services) {
  const resolved = route.parents.map((it) => conditionOf(it.conditions, "ResolvedRefs")).find((it) => it.status !== "True");
  if (!data.eventsKnown) {
    if (resolved) picture.line(box, services(`not known: ${resolved.reason}`, "a backendRef that isn't resolved", "wrong"), "wrong", resolved.reason);
    return;
  }
  for (const backend of route.backends) {
    const name = `${backend.kind === "Service" ? "" : backend.kind + " "}${backend.name}${backend.port === null ? "" : ":" + backend.port}`;
    picture.line(box, services(name, backend.state || "resolved", backend.state ? "wrong" : ""), backend.state ? "wrong" : "", backend.state);
  }
}

function draw(gateway, routes, more, open) {
  const picture = new Picture(), reasons = reasonsOf(gateway.conditions), made = new Map(), listeners = new Map();
  const gatewayBox = picture.box(0, gateway.key, reasons.join(", ") || gateway.addresses.join(", ") || "no address", reasons.length ? "wrong" : "");
  for (const listener of gateway.listeners) {
    const box = listenerBox(picture, listener);
    listeners.set(listener.name, box);
    picture.line(gatewayBox, box, wrongOf(listener.conditions).length ? "wrong" : "");
  }
  const services = (name, below, state) => {
    const key = name + " " + below;
    if (!made.has(key)) made.set(key, picture.box(3, name, below, state));
    return made.get(key);
  };
  for (const route of routes) {
    const parents = route.parents.filter((it) => it.gateway === gateway.key);
    const bad = [...new Set(parents.flatMap((it) => reasonsOf(it.conditions)))];
    const state = (bad.length ? "wrong" : "") + (route.choice === "Chosen" ? " chosen" : "");
    const box = picture.box(2, route.key, bad.join(", ") || route.hostnames.join(", ") || "accepted", state, () => open(route));
    joinRoute(picture, route, box, parents, gatewayBox, listeners);
    joinServices(picture, route, box, services);
  }
  if (more > 0) picture.box(2, `and ${plural(more, "Route")} more`, "a word in the filter finds them", "");
  return picture.finish(`Gateway ${gateway.key} with its listeners, ${plural(routes.length, "Route")} and their Services`);
}

// What there is to know of one Route.
function rowsOf(route) {
  if (!data.rowsKnown) return element("p", { class: "faint" }, "Its rows aren't known without --admin.");
  if (!route.rows.length) return element("p", {}, "It has no row: no request at a DOOR can come to it.");
  const heads = ["DOOR", "Listener", data.ranksKnown ? "Place there" : "Place there, as far as known", "Hostname", "Rule", "Match", "Matches"];
  return element("table", {}, element("tr", {}, ...heads.map((it) => element("th", {}, it))), ...route.rows.map((it) => element("tr", {},
    ...[data.doors[it.door] || String(it.door), it.listener, `${it.place} of ${it.of}`, it.hostname || "any", it.rule, it.match, it.text || "not known"]
      .map((cell) => element("td", {}, String(cell))))));
}
function backendsOf(route) {
  if (!data.eventsKnown) return element("p", { class: "faint" }, "Its backendRefs aren't known without --events.");
  return element("ul", {}, ...route.backends.map((it) => element("li", {}, `rule ${it.rule}: ${it.kind} ${it.name}${it.port === null ? "" : ", port " + it.port}, weight ${it.weight}` +
    (it.state ? ": " : ""), it.state ? element("b", { class: "red" }, `${it.state}. ${data.states[it.state]}`) : null)));
}
function detail(route) {
  return element("div", {}, element("p", {}, `Hostnames: ${data.eventsKnown ? route.hostnames.join(", ") || "any" : "not known without --events"}`),
    route.choice ? element("p", {}, "This request: ", element("b", {}, route.choice), `. ${data.choices[route.choice] || ""}`) : null,
    element("p", {}, "Its rows, in order of precedence:"), rowsOf(route), element("p", {}, "What it refers to:"), backendsOf(route));
}

// The rows of a table of Routes, one for each parent.
function routeRows(route, gateway, columns) {
  const parents = route.parents.filter((it) => it.gateway === gateway.key), body = element("tbody", { "data-route": route.key });
  parents.forEach((parent, place) => {
    const name = element("button", { type: "button", "aria-expanded": "false" }, route.key);
    name.addEventListener("click", () => toggle(body, route, columns));
    const cells = [element("td", { class: "name" }, place ? "" : name), element("td", { class: "name" }, parent.text), condition(parent.conditions, "Accepted"),
      condition(parent.conditions, "ResolvedRefs"), element("td", {}, ...sentences(parent.conditions))];
    if (data.request) cells.push(element("td", {}, place ? "" : choiceText(route)));
    body.append(element("tr", {}, ...cells));
  });
  return body;
}
const choiceText = (route) => (route.choice ? `${route.choice}: ${data.choices[route.choice] || ""}` : "It has no row at this DOOR.");
function toggle(body, route, columns, keep) {
  const open = body.querySelector("tr.more");
  if (open && !keep) open.remove();
  else if (!open) body.append(element("tr", { class: "more" }, element("td", { colspan: columns }, detail(route))));
  body.querySelector("button").setAttribute("aria-expanded", String(Boolean(body.querySelector("tr.more"))));
}

// A Gateway, folded. What is inside is made when it is opened.
class Section {
  constructor(gateway) {
    this.gateway = gateway;
    this.routes = data.routes.filter((it) => it.parents.some((one) => one.gateway === gateway.key));
    this.inside = element("div", { class: "inside" });
    this.summary = element("summary", {});
    this.details = element("details", { class: "gateway", "data-gateway": gateway.key }, this.summary, this.inside);
    this.details.addEventListener("toggle", () => this.fill());
    this.listed = LISTED;
    this.details.open = data.routes.length <= FEW || this.routes.some((it) => it.choice === "Chosen");
  }
  update() {
    const gateway = this.gateway, wrong = this.routes.filter(isWrong).length, reasons = reasonsOf(gateway.conditions);
    const facts = [gateway.class ? `class ${gateway.class}` : null, gateway.addresses.join(", ") || "no address", plural(gateway.listeners.length, "listener"),
      plural(this.routes.length, "Route")];
    this.found = this.routes.filter(fits);
    this.listed = LISTED;
    this.summary.replaceChildren(element("b", {}, gateway.key), facts.filter(Boolean).join(" · "), wrong ? element("span", { class: "red" }, ` · ${wrong} wrong`) : "",
      reasons.length ? element("span", { class: "red" }, ` · ${reasons.join(", ")}`) : "",
      this.found.length < this.routes.length ? ` · ${this.found.length} shown` : "");
    const isFiltered = shown.words.length > 0 || shown.onlyWrong;
    this.details.hidden = isFiltered && this.found.length === 0 && !(shown.words.length === 0 && reasons.length);
    if (isFiltered && this.found.length > 0) this.details.open = true;
    this.fill();
  }
  fill() {
    if (!this.details.open) return this.inside.replaceChildren();
    // (where not all have room in the picture, what is chosen and what is wrong come first)
    const weight = (route) => (route.choice === "Chosen" ? 0 : isWrong(route) ? 1 : 2);
    const all = this.found.length <= PICTURED ? this.found : [...this.found].sort((one, other) => weight(one) - weight(other));
    const drawnRoutes = all.slice(0, PICTURED);
    this.inside.replaceChildren(element("div", { class: "scroll" },
      draw(this.gateway, drawnRoutes, this.found.length - drawnRoutes.length, (route) => this.show(route))), this.table(all));
  }
  table(routes) {
    const heads = ["HTTPRoute", "Parent", "Accepted", "ResolvedRefs", "Reason", ...(data.request ? ["This request"] : [])];
    const table = element("table", { class: "routes" }, element("thead", {}, element("tr", {}, ...heads.map((it) => element("th", {}, it)))));
    this.bodies = new Map();
    const around = element("div", { class: "scroll" }, table), next = element("button", { type: "button", class: "step" });
    let count = 0;
    const add = (most) => {
      for (const route of routes.slice(count, count + most)) {
        const body = routeRows(route, this.gateway, heads.length);
        this.bodies.set(route.key, body);
        table.append(body);
      }
      count = Math.min(routes.length, count + most);
      next.textContent = `${plural(routes.length - count, "Route")} more: show ${Math.min(LISTED, routes.length - count)} of them`;
      next.hidden = count >= routes.length;
    };
    next.addEventListener("click", () => add(LISTED));
    add(LISTED);
    around.append(next);
    return around;
  }
  show(route) {
    const body = this.bodies.get(route.key);
    if (!body) return;
    toggle(body, route, data.request ? 6 : 5, true);
    body.scrollIntoView({ block: "center" });
  }
}

function list(title, texts, kind) {
  return texts.length ? element("div", { class: `panel ${kind}` }, element("b", {}, title), element("ul", {}, ...texts.map((it) => element("li", {}, it)))) : null;
}
function verdictText(verdict) {
  const by = `rule ${verdict.rule} of ${verdict.route}, by its match ${verdict.match}`;
  if (verdict.verdict === "NotFound") return verdict.listener ? `The listener ${verdict.listener} takes it, and no row there fits: 404.` : "No listener takes it: 404.";
  const taken = `The listener ${verdict.listener} takes it, and ${by}, serves it`;
  if (verdict.verdict === "Redirect") return `${taken} with ${verdict.code} and the location ${verdict.location}.`;
  if (verdict.verdict === "Nothing") return `${taken}. The rule has no backendRef of a weight above 0: 500.`;
  return `${taken}. Its backendRefs: ${verdict.backends.map((it) => `${it.state}, weight ${it.weight}`).join("; ")}.`;
}
function requestPanel() {
  if (!data.request) return null;
  return element("div", { class: "panel request" }, element("b", {}, `The request at DOOR ${data.request.at}${data.request.door ? ", " + data.request.door : ""}: `),
    element("code", {}, data.request.text.trim().replace(/\r\n/g, " ⏎ ")), element("p", {}, verdictText(data.request.verdict)));
}
function refusedPanel() {
  if (!data.refused.length) return null;
  const heads = ["Line", "Object", "Refusal", "Path", "What to do"];
  return element("div", { class: "panel wrong scroll" }, element("b", {}, `${plural(data.refused.length, "line")} refused`), element("table", {},
    element("tr", {}, ...heads.map((it) => element("th", {}, it))), ...data.refused.map((row) => element("tr", {}, ...row.map((it) => element("td", {}, it))))));
}

function start() {
  const wrong = data.routes.filter(isWrong).length, badClasses = data.classes.filter((it) => wrongOf(it.conditions).length);
  const sections = data.gateways.map((it) => new Section(it)), update = () => sections.forEach((it) => it.update());
  const filter = element("input", { type: "search", placeholder: "Filter Routes by words: a name, a hostname, a reason, a Service", "aria-label": "Filter Routes" });
  const only = element("input", { type: "checkbox", id: "only" });
  filter.addEventListener("input", () => { shown.words = filter.value.toLowerCase().split(/\s+/).filter(Boolean); update(); });
  only.addEventListener("change", () => { shown.onlyWrong = only.checked; update(); });
  const parts = [element("h1", {}, "gateward: Gateways and Routes"),
    element("p", { class: "faint" }, [plural(data.gateways.length, "Gateway"), plural(data.routes.length, "Route"), `${wrong} of them wrong`,
      data.summary.front === undefined ? `${plural(data.summary.changes, "change")}` : `${plural(data.summary.front, "change")} published`].join(" · ")),
    requestPanel(), list("What to do", data.findings, "wrong"), refusedPanel(),
    list("GatewayClasses that aren't accepted", badClasses.map((it) => `${it.key}: ${reasonsOf(it.conditions).map((one) => one + ". " + data.sentences[one]).join(" ")}`), "wrong"),
    list("What this page doesn't show", data.notes, "faint"),
    element("div", { class: "tools" }, filter, element("label", { for: "only" }, only, " only what is wrong")),
    ...sections.map((it) => it.details)];
  document.querySelector("main").append(...parts.filter(Boolean));
  update();
}
start();

// Shows the state of the building, which is asked for each second. All words of the building are put into the page as
// text, never as HTML.
"use strict";

const GREATEST_LEVEL = 254, SECOND = 1000, HIDDEN = 10 * SECOND, PATIENCE = 8 * SECOND;
const element = (id) => document.getElementById(id);
let tag = "", state = null, isReached = true;

// What is shown.

function put(node, name, text) {
  const part = name ? node.querySelector(`[data-${name}]`) : node;
  if (part.textContent !== text) part.textContent = text;
  part.hidden = !text;
}

function putTime(node, name, at) {
  const part = node.querySelector(`[data-${name}]`);
  part.hidden = !at;
  if (at && part.dataset.seconds !== String(at)) {
    part.dataset.seconds = at;
    part.dateTime = new Date(at * SECOND).toISOString();
    part.title = new Date(at * SECOND).toLocaleString();
  }
}

function ago(at) {
  const seconds = Math.max(0, Math.round(Date.now() / SECOND - at));
  if (seconds < 60) return `${seconds} s ago`;
  if (seconds < 3600) return `${Math.floor(seconds / 60)} min ago`;
  if (seconds < 86400) return `${Math.floor(seconds / 3600)} h ago`;
  return new Date(at * SECOND).toLocaleDateString();
}

function lasting(seconds) {
  const two = (number) => String(number).padStart(2, "0");
  const hours = Math.floor(seconds / 3600), minutes = Math.floor(seconds / 60) % 60;
  return hours ? `${hours}:${two(minutes)}:${two(seconds % 60)}` : `${minutes}:${two(seconds % 60)}`;
}

// Makes the children of a list those of the items, each by its id, so that what has the focus keeps it.
function keep(list, items, template, fill) {
  const there = new Map([...list.children].map((node) => [node.dataset.id, node]));
  items.forEach((item, at) => {
    const id = String(item.id);
    let node = there.get(id);
    if (!node) {
      node = element(template).content.firstElementChild.cloneNode(true);
      node.dataset.id = id;
    }
    there.delete(id);
    if (list.children[at] !== node) list.insertBefore(node, list.children[at] || null);
    fill(node, item);
  });
  there.forEach((node) => node.remove());
  const none = document.querySelector(`[data-none="${list.id}"]`);
  list.hidden = !items.length;
  if (none) none.hidden = items.length > 0;
}

function fillLamp(node, lamp) {
  const isKnown = lamp.level !== null && lamp.level <= GREATEST_LEVEL;
  put(node, "name", lamp.name);
  put(node, "where", lamp.where);
  put(node, "level", isKnown ? (lamp.level ? String(lamp.level) : "off") : "–");
  put(node, "of", isKnown && lamp.level ? `of ${GREATEST_LEVEL}` : "");
  put(node, "sent", lamp.sent ? `sent ${lamp.sent}` : "nothing was sent yet");
  putTime(node, "sent-at", lamp.sent_at);
  put(node, "answered", lamp.answered ? `answered ${lamp.answered}` : lamp.is_one ? "was not asked" : "");
  putTime(node, "answered-at", lamp.answered_at);
  put(node, "later", lamp.later);
  put(node, "differs", lamp.differs ? `differs: sent ${lamp.sent || "nothing"}, answered ${lamp.answered}` : "");
  node.style.setProperty("--level", isKnown ? lamp.level / GREATEST_LEVEL : 0);
  node.classList.toggle("differs", lamp.differs);
}

function fillSource(node, source) {
  const form = node.querySelector("form"), select = form.elements.choice;
  put(node, "name", source.name);
  put(node, "where", source.where);
  put(node, "said", source.said || "said nothing yet");
  put(node, "hand", source.by_hand ? "by hand" : "");
  putTime(node, "at", source.at);
  if (form.dataset.kind === JSON.stringify(source.choices)) return;
  form.dataset.kind = JSON.stringify(source.choices);
  select.replaceChildren(...source.choices.map(([number, words]) => new Option(words, number)));
  select.hidden = select.disabled = !source.choices.length;
  form.elements.number.hidden = form.elements.number.disabled = source.choices.length > 0;
  const asked = select.hidden ? form.elements.number : select;
  asked.id = `what-${source.id.replaceAll(" ", "-")}`;
  form.querySelector("label").htmlFor = asked.id;
  put(node, "label", `What ${source.name} is to say`);
  node.querySelector("[data-press]").setAttribute("aria-label", `Press ${source.name}`);
}

function fillBus(node, bus) {
  put(node, "name", bus.name ? `Bus ${bus.bus}, ${bus.name}` : `Bus ${bus.bus}`);
  put(node, "state", bus.state);
  put(node, "why", bus.why);
  putTime(node, "since", bus.since);
  put(node, "counts", `frames sent: ${bus.sent}, events heard: ${bus.heard}`);
  put(node, "lost", `frames lost in the last hour: ${bus.lost}`);
  node.querySelector("[data-lost]").classList.toggle("bad", bus.lost > 0);
  node.classList.toggle("is-down", bus.state !== "up");
}

function fillTimer(node, timer) {
  const left = Math.max(0, Math.round(timer.ends - Date.now() / SECOND));
  put(node, "name", timer.name);
  put(node, "left", `${lasting(left)} left`);
  put(node, "of", `of ${lasting(timer.of)}`);
  node.style.setProperty("--level", timer.of ? Math.min(1, left / timer.of) : 0);
}

function fillLine(node, line) {
  const clock = node.querySelector("[data-clock]"), at = new Date(line.at * SECOND);
  clock.dateTime = at.toISOString();
  clock.title = at.toLocaleString();
  put(node, "clock", at.toLocaleTimeString());
  put(node, "words", line.words);
  put(node, "means", line.means || "");
  node.classList.toggle("is-trouble", line.is_trouble);
}

// The newest line comes first.
function showLines(id, lines) {
  const counted = new Map();
  const numbered = lines.map((line) => {
    const key = `${line.at} ${line.words}`;
    counted.set(key, (counted.get(key) || 0) + 1);
    return { ...line, id: `${key} ${counted.get(key)}` };
  });
  keep(element(id), numbered.reverse(), "line", fillLine);
}

function summary(shown) {
  const down = shown.buses.filter((bus) => bus.state !== "up");
  if (!isReached) return ["The page does not answer: what stands here may be old", true];
  if (down.length) return [down.map((bus) => `Bus ${bus.bus} is down`).join(", "), true];
  const differing = shown.lamps.filter((lamp) => lamp.differs).length;
  if (differing === 1) return ["A lamp differs from what was sent", true];
  if (differing) return [`${differing} lamps differ from what was sent`, true];
  const lit = shown.lamps.filter((lamp) => lamp.is_one && lamp.level).length;
  return [`All is well: ${lit} of ${shown.lamps.filter((lamp) => lamp.is_one).length} lamps lit`, false];
}

function showSummary() {
  const [words, isBad] = state ? summary(state) : ["Looking at the lines", false];
  put(element("summary"), "", words);
  element("summary").classList.toggle("is-bad", isBad);
  document.title = `${words} · Building`;
}

function showTimes() {
  for (const node of document.querySelectorAll("time[data-seconds]:not([data-clock])")) {
    const at = Number(node.dataset.seconds), since = new Date(at * SECOND).toLocaleTimeString();
    const words = node.hasAttribute("data-since") ? `since ${since}, ${ago(at)}` : ago(at);
    if (node.textContent !== words) node.textContent = words;
  }
  const timers = ((state && state.timers) || []).map((it) => ({ ...it, id: it.name }));
  keep(element("timers"), timers, "timer", fillTimer);
}

function show(next) {
  announce(state, next);
  state = next;
  keep(element("lamps"), next.lamps, "lamp", fillLamp);
  keep(element("sources"), next.sources, "source", fillSource);
  keep(element("buses"), next.buses.map((bus) => ({ ...bus, id: bus.bus })), "bus", fillBus);
  keep(element("troubles"), next.troubles.map((it) => ({ id: it })), "trouble", (node, it) => put(node, "", it.id));
  element("timers-part").hidden = !next.timers;
  element("log-part").hidden = !next.log;
  showLines("log", next.log || []);
  showLines("notes", next.notes);
  element("hour").hidden = !next.picture;
  element("leave").hidden = !next.locked;
  showTimes();
}

// What a reader of the screen says: buses that changed, and a few lamps or events, but no flood of them.
function announce(before, after) {
  if (!before) return;
  const was = (list, id) => list.find((it) => it.id === id);
  const words = after.buses.filter((bus) => bus.state !== before.buses[bus.bus].state)
    .map((bus) => `Bus ${bus.bus} is ${bus.state}: ${bus.why}.`);
  const lamps = after.lamps.filter((lamp) => {
    const it = was(before.lamps, lamp.id);
    return it && it.sent_at !== lamp.sent_at;
  });
  if (lamps.length > 3) words.push(`${lamps.length} lamps changed.`);
  else words.push(...lamps.map((lamp) => `${lamp.name}: ${lamp.sent}.`));
  if (words.length) put(element("told"), "", words.join(" "));
}

// What is asked.

async function look() {
  try {
    const headers = tag ? { "If-None-Match": tag } : {};
    const answer = await fetch("/state", { headers, cache: "no-store", signal: AbortSignal.timeout(PATIENCE) });
    if (answer.status === 401) return location.assign("/login");
    isReached = answer.ok || answer.status === 304;
    if (answer.ok) {
      const next = await answer.json();
      tag = answer.headers.get("ETag");
      show(next);
    }
  } catch {
    isReached = false;
  }
  showSummary();
}

async function press(form) {
  const chosen = form.elements.choice.disabled ? form.elements.number.value : form.elements.choice.value;
  const button = form.querySelector("button"), output = form.querySelector("output");
  const source = form.closest("li").dataset.id;
  button.setAttribute("aria-disabled", "true");
  try {
    const body = JSON.stringify({ source, information: Number(chosen) });
    const answer = await fetch("/press", { method: "POST", headers: { "Content-Type": "application/json" }, body });
    output.textContent = answer.ok ? "The controller heard it" : `Not pressed: ${(await answer.text()).trim()}`;
    output.classList.toggle("is-bad", !answer.ok);
  } catch {
    output.textContent = "Not pressed: the page does not answer";
    output.classList.add("is-bad");
  }
  button.removeAttribute("aria-disabled");
  setTimeout(() => { output.textContent = ""; }, 6 * SECOND);
  look();
}

async function draw() {
  const picture = element("picture"), said = element("drawn");
  said.textContent = "Drawing";
  const answer = await fetch("/hour.svg", { cache: "no-store" }).catch(() => null);
  if (!answer || !answer.ok) {
    said.textContent = answer ? (await answer.text()).trim() : "The page does not answer";
    return;
  }
  picture.onload = () => { said.textContent = `Drawn at ${new Date().toLocaleTimeString()}`; };
  picture.src = `/hour.svg?${Date.now()}`;
  picture.hidden = false;
}

element("sources").addEventListener("submit", (event) => {
  event.preventDefault();
  if (event.target.querySelector("button").getAttribute("aria-disabled") !== "true") press(event.target);
});
element("draw").addEventListener("click", draw);

// Asks again a second after the last answer; less often while nobody looks.
(async function run() {
  for (;;) {
    await look();
    await new Promise((go) => setTimeout(go, document.hidden ? HIDDEN : SECOND));
  }
})();
document.addEventListener("visibilitychange", () => { if (!document.hidden) look(); });
setInterval(() => { showTimes(); }, SECOND);

// The state after the chosen event, part by part. What the event changed is marked.

/** An element with its attributes and what stands in it: texts and elements. */
function made(tag, attributes = {}, ...parts) {
  const element = document.createElement(tag);
  for (const [name, value] of Object.entries(attributes)) if (value !== null && value !== undefined && value !== false) element.setAttribute(name, value);
  element.append(...parts.flat().filter((part) => part !== null && part !== undefined));
  return element;
}

const same = (one, other) => one === other || JSON.stringify(one) === JSON.stringify(other);
const mark = (changed) => (changed ? "t-changed" : null);
const nothing = (words) => made("p", { class: "t-none" }, words);

/** A table with these heads. */
function table(heads, rows) {
  return made("table", {}, made("thead", {}, made("tr", {}, ...heads.map((head) => made("th", { scope: "col" }, head)))), made("tbody", {}, ...rows));
}

/** A link to a block. */
function blockLink(block) {
  return made("a", { href: "#", class: "t-block", "data-block": block, title: `block ${block}, from ${addressOf(block)} on` }, String(block));
}

/** A link to an event. */
function eventLink(place) {
  return made("a", { href: "#", class: "t-event", "data-place": place }, String(place));
}

/** The registers that aren't 0, and those that were until now; those that changed are marked. */
function registerWords(core, before) {
  const names = new Set([...Object.keys(core.registers), ...Object.keys(before.registers)]);
  const ordered = [...names].sort((one, other) => Number(one.slice(1)) - Number(other.slice(1)));
  return ordered.flatMap((name) => {
    const value = core.registers[name] ?? "00000000";
    return [made("span", { class: mark(value !== (before.registers[name] ?? "00000000")) }, `${name}=${value}`), " "];
  });
}

/** A core: its node's interval, the recovery point that the node knows, and where it stands; and its registers in a row of their own. */
function coreRows(node, was) {
  const { core } = node;
  const registers = registerWords(core, was.core);
  const reserved = core.reservation === null ? "" : blockLink(core.reservation);
  const row = made("tr", { "data-node": node.node },
    made("th", { scope: "row" }, String(node.node)),
    made("td", { class: mark(node.now !== was.now) }, String(node.now)),
    made("td", { class: mark(node.known !== was.known) }, String(node.known)),
    made("td", { class: mark(core.pc !== was.core.pc) }, core.pc),
    made("td", { class: mark(core.end !== was.core.end) }, core.end),
    made("td", { class: mark(core.reservation !== was.core.reservation) }, reserved));
  const below = made("tr", { class: "t-registers", "data-registers": node.node }, made("td"), made("td", { colspan: 5 }, ...registers));
  return registers.length === 0 ? [row] : [row, below];
}

/** Cores: their intervals, where they stand, and their registers. */
function coresPane(state, before) {
  return table(["core", "interval", "knows", "pc", "end", "reserved"], state.nodes.flatMap((node, place) => coreRows(node, before.nodes[place])));
}

const STATES = { M: "modified", O: "owned", E: "exclusive", S: "shared" };

/** A line of a cache as a chip. */
function chip(line, changed) {
  const title = `block ${line.block}, ${STATES[line.state]}: ${line.content}`;
  return made("a", { href: "#", class: `t-chip t-${line.state} ${mark(changed) ?? ""}`, "data-block": line.block, title }, `${line.state} ${line.block}`);
}

function missWords(miss) {
  const rest = miss.fixed === null ? "" : `, fixed at interval ${miss.fixed}, ${miss.acks} of ${miss.due} acknowledgements in`;
  return ["wants to ", miss.need, " block ", blockLink(miss.block), ` since interval ${miss.issued}${rest}`];
}

/** Caches: each node's lines, its open miss and its open put. */
function cachesPane(state, before) {
  return made("ul", { class: "t-plain" }, ...state.nodes.map((node, place) => {
    const was = before.nodes[place];
    const lines = node.lines.map((line) => chip(line, !was.lines.some((one) => same(one, line))));
    const miss = node.miss && made("span", { class: mark(!same(node.miss, was.miss)) }, ...missWords(node.miss), " ");
    const put = node.put && made("span", { class: mark(!same(node.put, was.put)) }, "gives back block ", blockLink(node.put.block), ` since interval ${node.put.issued}`);
    const rest = node.lines.length || node.miss || node.put ? [] : [made("span", { class: "t-none" }, "empty")];
    return made("li", { class: mark(was.lines.length > node.lines.length), "data-node": node.node }, made("b", {}, `node ${node.node} `), ...lines, miss, put, ...rest);
  }));
}

/** What was lost of a transaction, with links to the events that lost it. */
function lostWords(lost) {
  return lost.flatMap(({ message, place }) => [`; message ${message.id} of it, ${kindWords(message)}, was lost at event `, eventLink(place)]);
}

/** Homes that aren't as at the start. */
function homesPane(state, before, lostNow) {
  if (state.homes.size === 0) return nothing("All are as at the start: each home owns its blocks.");
  const rows = [...state.homes.values()].sort((one, other) => one.block - other.block).map((home) => {
    const open = home.transaction;
    return made("tr", { class: mark(!same(home, before.homes.get(home.block))), "data-home": home.block },
      made("th", { scope: "row" }, blockLink(home.block)),
      made("td", {}, String(home.block % state.nodes.length)),
      made("td", {}, home.owner === null ? "the home" : `node ${home.owner}`),
      made("td", {}, home.sharers.join(" ")),
      made("td", {}, open ? `${open.kind} for node ${open.requester}, begun in interval ${open.begun}` : "", ...lostWords(lostNow(home.block))));
  });
  return table(["block", "home", "owner", "sharers", "open transaction"], rows);
}

const OLD = { notowned: "it didn't own it", owned: "it owned it, with", washome: "the home owned it, with", wascache: "a cache owned it" };

/** An entry of a log; hatched if a recovery would use it now. */
function entryRow(entry, point, changed) {
  const old = entry.old === "wascache" ? `node ${entry.owner} owned it` : OLD[entry.old];
  const title = entry.content ? `${old} ${entry.content}` : old;
  return made("li", { class: `${entry.interval >= point ? "t-undo" : ""} ${mark(changed) ?? ""}`, title },
    `interval ${entry.interval}, block `, blockLink(entry.block), `: ${old}${entry.content ? ` ${entry.content.slice(0, 8)}…` : ""}`);
}

/** Logs, the oldest entry first. */
function logsPane(state, before) {
  const { point } = state.controller;
  const logs = state.nodes.map((node, place) => {
    const was = before.nodes[place].log;
    const rows = node.log.map((entry) => entryRow(entry, point, !was.some((one) => same(one, entry))));
    const freed = was.length > node.log.length ? made("p", { class: "t-changed" }, `${count(was.length - node.log.length, "entry", "entries")} less than before`) : null;
    return made("div", { class: "t-log", "data-node": node.node }, made("b", {}, `node ${node.node}`), rows.length ? made("ol", {}, ...rows) : nothing("empty"), freed);
  });
  return made("div", { class: "t-logs" }, ...logs);
}

function messageWords(message) {
  const about = message.kind === "ready" ? `checkpoint ${message.checkpoint}` : message.kind === "advance" ? `recovery point ${message.point}` : null;
  const more = ["requester", "due", "fixed"].filter((name) => name in message).map((name) => ` ${name} ${message[name]}`).join("");
  return [`${message.id}: ${message.kind} from ${message.from} to ${message.to}, tag ${message.tag}, `, ...(about ? [about] : ["block ", blockLink(message.block)]), more];
}

/** The network: messages in flight with their switches, and dead switches. */
function netPane(state, before) {
  const known = new Map(before.net.messages.map((flight) => [flight.message.id, flight.switch]));
  const rows = state.net.messages.map((flight) =>
    made("li", { class: mark(known.get(flight.message.id) !== flight.switch), "data-message": flight.message.id, title: flight.message.content ?? null }, ...messageWords(flight.message), ` in switch ${flight.switch}`));
  const dead = made("p", { class: mark(state.net.dead.length !== before.net.dead.length) }, state.net.dead.length ? `Dead: ${list(state.net.dead)}.` : "All switches live.");
  return made("div", {}, rows.length ? made("ul", { class: "t-plain" }, ...rows) : nothing("No message is in flight."), dead);
}

/** Bytes as text, those that can't be printed in their digits. */
function bytesText(bytes) {
  return bytes.map((byte) => { const code = parseInt(byte, 16); return code >= 32 && code < 127 ? String.fromCharCode(code) : `\\x${byte}`; }).join("");
}

/** The recovery point, what is committed, and the console: bytes that are out, and bytes that wait. */
function consolePane(state, before, story) {
  const { point, reported, committed, held, released } = state.controller;
  const was = before.controller;
  const out = (story.console.match(/../g) ?? []).slice(0, released);
  return made("dl", {},
    made("dt", {}, "recovery point"), made("dd", { class: mark(point !== was.point) }, `checkpoint ${point}`),
    made("dt", {}, "reported"), made("dd", { class: mark(!same(reported, was.reported)) }, reported.map((number, node) => `node ${node}: ${number}`).join(", ")),
    made("dt", {}, "committed"), made("dd", { class: mark(committed !== was.committed) }, count(committed, "instruction")),
    made("dt", {}, "put out"), made("dd", { class: mark(released !== was.released) }, made("code", {}, bytesText(out) || "nothing")),
    made("dt", {}, "held"), made("dd", { class: mark(!same(held, was.held)) }, made("code", {}, bytesText(held.map((one) => one.byte)) || "nothing")));
}

/** All of a block: who owns it, who has a copy, its home, messages about it, and the events that are about it. */
function storyPane(state, story, block, lostNow) {
  if (block === null) return nothing("Choose a block: by a click on its number, or in the field above.");
  const owner = ownerOf(state, block);
  const home = block % state.nodes.length;
  const whose = owner === null ? "It is on its way: nobody owns it just now." : owner === "home" ? `Its home, node ${home}, owns it.` : `Node ${owner} owns it.`;
  const copies = state.nodes.flatMap((node) => node.lines.filter((line) => line.block === block).map((line) => made("li", {}, `node ${node.node}: ${STATES[line.state]}, `, made("code", {}, line.content.slice(0, 16)), "…")));
  const flights = state.net.messages.filter((flight) => flight.message.block === block).map((flight) => made("li", {}, ...messageWords(flight.message), ` in switch ${flight.switch}`));
  const open = openAt(state, block);
  const serves = open ? [`Its home serves node ${open.requester} (${open.kind})`, ...lostWords(lostNow(block)), "."] : [];
  return made("div", {},
    made("p", {}, `${whose} `, ...serves),
    made("ul", { class: "t-plain" }, ...copies, ...flights),
    made("p", { class: "t-events" }, "events about it: ", ...story.about(block).flatMap((place) => [eventLink(place), " "])));
}

/** What the event found and sent, besides its sentence. */
function detailsPane(line) {
  const rows = [];
  if (line.step?.instruction) rows.push(made("li", {}, made("code", {}, `${line.step.pc}: ${line.step.instruction}`)));
  for (const sent of line.sent) rows.push(made("li", { title: sent.message.content ?? null }, "sends ", ...messageWords(sent.message), sent.lost ? " – lost at once" : ""));
  for (const { node, entry } of line.recovery?.undone ?? []) rows.push(made("li", {}, `undone at node ${node}: block `, blockLink(entry.block), `, interval ${entry.interval}`));
  for (const flight of line.recovery?.dropped ?? []) rows.push(made("li", {}, "dropped: ", ...messageWords(flight.message)));
  return made("ul", { class: "t-plain" }, ...rows);
}

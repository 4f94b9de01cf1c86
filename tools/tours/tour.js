// Going from event to event. The place and the block stand behind the address's #, so that a link is a place in a lecture.

/** The data, which deflate made small. */
async function readData(text) {
  const bytes = Uint8Array.from(atob(text), (letter) => letter.charCodeAt(0));
  const stream = new Blob([bytes]).stream().pipeThrough(new DecompressionStream("deflate"));
  return JSON.parse(await new Response(stream).text());
}

/** What is told of the events from `begin` to `end`: the line of each, and the state after each, and before the first. */
function storyOf({ first, events, summary, console: bytes }) {
  const states = foldedStates(first, events);
  const begin = first.events + 1;
  const state = (place) => states[place - begin + 1];
  const line = (place) => events[place - begin];
  const blocks = events.map((one) => blocksOf(one, state(one.place - 1), state(one.place)));
  const about = (block) => events.filter((_, at) => blocks[at].has(block)).map((one) => one.place);
  const lost = events.flatMap((one) => lostBy(one, state(one.place - 1), state(one.place)).map((message) => ({ message, place: one.place })));
  return { first, events, summary, console: bytes, begin, end: begin + events.length - 1, state, line, about, lost };
}

/** The next place after this one whose event is so, or null. */
function nextPlace(story, place, isSo) {
  return story.events.find((one) => one.place > place && isSo(one))?.place ?? null;
}

/** The block of a field's text: a number, or an address of eight digits. Null where it is none. */
function blockOfText(text) {
  const word = text.trim().toLowerCase();
  const block = /^8[0-9a-f]{7}$/.test(word) ? blockAt(word) : /^[0-9]{1,5}$/.test(word) ? Number(word) : null;
  return block !== null && block < 65536 ? block : null;
}

/** The place and the block that an address names, as far as there are such. */
function wishOf(story, hash) {
  const words = new URLSearchParams(hash.replace(/^#/, ""));
  const place = Number(words.get("event") ?? story.begin - 1);
  const known = Number.isInteger(place) && place >= story.begin - 1 && place <= story.end;
  return { place: known ? place : story.begin - 1, block: blockOfText(words.get("block") ?? "") };
}

const at = (name) => document.getElementById(name);

/** Shows the state after the event at a place. */
function showState(story, place, block) {
  const state = story.state(place);
  const before = place < story.begin ? state : story.state(place - 1);
  const line = story.line(place);
  at("sentence").textContent = line ? sentenceOf(line, story) : place === 0 ? "The start: all cores stand at the program's entry, all caches are empty." : `The state after event ${place}.`;
  at("report").textContent = line ? `${line.place} ${line.event}: ${line.answer}` : "";
  at("details").replaceChildren(...(line ? [detailsPane(line)] : []));
  at("block-title").textContent = block === null ? "A block's story" : `Block ${block} (from ${addressOf(block)} on)`;
  const lostNow = (one) => lostOf(story, place, one);
  const panes = { cores: coresPane(state, before), story: storyPane(state, story, block, lostNow), caches: cachesPane(state, before), homes: homesPane(state, before, lostNow),
    logs: logsPane(state, before), net: netPane(state, before), console: consolePane(state, before, story) };
  for (const [name, pane] of Object.entries(panes)) at(name).replaceChildren(pane);
}

/** The page: where it stands, and how it goes elsewhere. */
function begun(story) {
  const pieces = piecesOf(document.querySelectorAll("figure.piece"));
  const now = { place: story.begin - 1, block: null };
  const go = (place, block = now.block) => {
    if (place === null || place < story.begin - 1 || place > story.end) return;
    Object.assign(now, { place, block });
    showState(story, place, block);
    markLanes(pieces, story, place, block);
    showRow(pieces, place);
    at("place").value = at("slider").value = place;
    if (block !== null && document.activeElement !== at("block")) at("block").value = block;
    const hash = `#event=${place}${block === null ? "" : `&block=${block}`}`;
    if (location.hash !== hash) history.replaceState(null, "", hash);
  };
  const next = (isSo) => go(nextPlace(story, now.place, isSo));
  const aboutBlock = () => go(story.about(now.block).find((place) => place > now.place) ?? null);
  return {
    now, go,
    first: () => go(story.begin - 1), last: () => go(story.end), back: () => go(now.place - 1), forward: () => go(now.place + 1),
    recovery: () => next((line) => line.answer.startsWith("recovered")), validation: () => next((line) => line.answer.startsWith("validated")), block: aboutBlock,
  };
}

/** Keys: what each does. */
function keysOf(page) {
  return {
    ArrowLeft: page.back, ArrowRight: page.forward, Home: page.first, End: page.last, r: page.recovery, v: page.validation, b: page.block,
    "/": () => at("block").focus(), "?": () => at("help").showModal(),
  };
}

/** Joins the controls to the page. */
function joined(page, story) {
  const buttons = { first: page.first, back: page.back, forward: page.forward, last: page.last, recovery: page.recovery, validation: page.validation, block: page.block, help: () => at("help").showModal() };
  for (const [name, deed] of Object.entries(buttons)) at(`to-${name}`).addEventListener("click", deed);
  const keys = keysOf(page);
  document.addEventListener("keydown", (event) => {
    const isTyped = event.target instanceof HTMLInputElement && event.target.type !== "range";
    const deed = keys[event.key];
    if (!deed || isTyped || event.ctrlKey || event.altKey || event.metaKey || at("help").open) return;
    event.preventDefault();
    deed();
  });
  Object.assign(at("slider"), { min: story.begin - 1, max: story.end });
  at("slider").addEventListener("input", () => page.go(Number(at("slider").value)));
  at("place").addEventListener("change", () => (/^[0-9]+$/.test(at("place").value) ? page.go(Number(at("place").value)) : undefined));
  at("block").addEventListener("change", () => page.go(page.now.place, blockOfText(at("block").value)));
  document.addEventListener("click", (event) => {
    const link = event.target.closest("a[data-block], a[data-place], g.event");
    if (!link) return;
    event.preventDefault();
    if (link.dataset.block !== undefined) page.go(page.now.place, Number(link.dataset.block));
    else page.go(Number(link.dataset.place ?? link.id.slice("event-".length)));
  });
  window.addEventListener("hashchange", () => { const wish = wishOf(story, location.hash); page.go(wish.place, wish.block); });
}

/** All sentences, for paper. */
function allSentences(story) {
  at("all-sentences").replaceChildren(...story.events.map((line) => made("li", { value: line.place }, sentenceOf(line, story))));
}

async function main() {
  const story = storyOf(await readData(at("data").textContent));
  const { nodes, sets, ways, log } = story.first;
  at("sizes").textContent = `${count(nodes, "node")}, ${count(sets, "set")} of ${count(ways, "way")}, a log of ${log} · ${count(story.events.length, "event")}`;
  const page = begun(story);
  joined(page, story);
  window.addEventListener("beforeprint", () => allSentences(story));
  const wish = wishOf(story, location.hash);
  page.go(wish.place, wish.block ?? [...(story.events.length ? blocksOf(story.events.find((line) => line.sent.length) ?? story.events[0], story.state(story.begin - 1), story.state(story.begin)) : [])][0] ?? null);
  window.tour = { story, page };
  document.documentElement.dataset.ready = "yes";
}

main();

"use strict";
// States: the first line's, and then each event's parts in the place of those that have their number. Parts that an event didn't touch are shared.

/** The start's homes by their block. */
function homesOf(state) {
  return new Map(state.homes.map((home) => [home.block, home]));
}

/** Homes after those that were told; one that is told by its block alone is as at the start, and goes. */
function homesAfter(homes, told) {
  if (told.length === 0) return homes;
  const after = new Map(homes);
  for (const home of told) {
    if (Object.keys(home).length === 1) after.delete(home.block);
    else after.set(home.block, home);
  }
  return after;
}

/** The state of a whole state's object. */
function wholeState(state) {
  return { nodes: state.nodes, homes: homesOf(state), net: state.net, controller: state.controller };
}

/** The state after an event's line. */
function stateAfter(before, line) {
  if (line.state) return wholeState(line.state);
  if (!line.parts) return before;
  const { nodes, homes, net, controller } = line.parts;
  const told = new Map(nodes.map((node) => [node.node, node]));
  return {
    nodes: nodes.length === 0 ? before.nodes : before.nodes.map((node) => told.get(node.node) ?? node),
    homes: homesAfter(before.homes, homes),
    net: net ?? before.net,
    controller: controller ?? before.controller,
  };
}

/** The states before the first event and after each. */
function foldedStates(first, events) {
  const states = [wholeState(first.state)];
  for (const line of events) states.push(stateAfter(states[states.length - 1], line));
  return states;
}

/** The node whose cache owns a block, "home" if its home owns it, or null while it is on its way. */
function ownerOf(state, block) {
  for (const node of state.nodes) {
    if (node.lines.some((line) => line.block === block && line.state !== "S")) return node.node;
  }
  const home = state.homes.get(block);
  return !home || home.owner === null ? "home" : null;
}

/** The first byte of memory, and the bytes of a block. */
const MEMORY = 0x80000000;
const BLOCK = 64;

/** The block that has an address, in eight hexadecimal digits. */
function blockAt(address) {
  return Math.floor((parseInt(address, 16) - MEMORY) / BLOCK);
}

/** A block's first address. */
function addressOf(block) {
  return (MEMORY + BLOCK * block).toString(16).padStart(8, "0");
}

/** The message of this number, in flight before an event. */
function flightIn(state, id) {
  const found = state.net.messages.find((flight) => flight.message.id === id);
  return found ? found.message : null;
}

/** The blocks that an event is about: its message's, those of what it sent, the one it gives up, its miss's, and the one that it wrote. */
function blocksOf(line, before, after) {
  const blocks = new Set(line.sent.map((sent) => sent.message.block));
  const [kind, ...operands] = line.event.split(" ");
  if (kind === "hop" || kind === "deliver" || kind === "lose") blocks.add(flightIn(before, operands[0])?.block);
  if (kind === "evict") blocks.add(Number(operands[1]));
  if (kind === "step") {
    const wrote = line.step?.did?.wrote;
    if (wrote) blocks.add(blockAt(wrote.address));
    if (line.answer !== "retired") blocks.add(after.nodes[Number(operands[0])].miss?.block);
  }
  for (const undone of line.recovery?.undone ?? []) blocks.add(undone.entry.block);
  blocks.delete(undefined);
  return blocks;
}

/** The messages that an event lost: those that it sent and that were lost at once, and those in flight before it that neither came nor were dropped. */
function lostBy(line, before, after) {
  const atOnce = line.sent.filter((sent) => sent.lost).map((sent) => sent.message);
  if (line.recovery || line.answer === "delivered") return atOnce;
  const still = new Set(after.net.messages.map((flight) => flight.message.id));
  return [...atOnce, ...before.net.messages.map((flight) => flight.message).filter((message) => !still.has(message.id))];
}

// Of each kind of message that a home's transaction brings about, the field that names the node for which it is open. The others begin one, or
// come after it.
const FOR_WHOM = {
  fwdgets: "requester", fwdgetm: "requester", inv: "requester", datas: "to", datam: "to", datae: "to", upgok: "to", invack: "to", unblock: "from", putgo: "to", putdata: "from",
};

/** Whether a message is one of a block's open transaction: it is about the block, and for the same node; a put has messages of its own. */
function isOf(message, block, open) {
  return message.block === block && message[FOR_WHOM[message.kind]] === open.requester && message.kind.startsWith("put") === (open.kind === "put");
}

/** The transaction that is open at a block's home, or null. */
function openAt(state, block) {
  return state.homes.get(block)?.transaction ?? null;
}

/** The messages of a block's open transaction that were lost while it was open, each with the place of the event that lost it. */
function lostOf(story, place, block) {
  const open = openAt(story.state(place), block);
  const found = open ? story.lost.filter((one) => one.place <= place && isOf(one.message, block, open)) : [];
  let since = place;
  while (found.some((one) => one.place < since) && same(openAt(story.state(since - 1), block), open)) since -= 1;
  return found.filter((one) => one.place >= since);
}

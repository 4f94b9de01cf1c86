// What happened, in words: one line a kind of event and answer, and one a kind of message that is delivered.
// A line is given what it may speak of: `node`, the event's node; `line`, the event's; `message`, the one that the event is about; `before` and
// `after`, the event's node (of a message, its receiver) before and after; `state` and `next`, the whole states; `numbers`, the answer's; and
// `lostBefore`, which gives what was lost of a block's open transaction before the event.

const count = (many, what, more = `${what}s`) => `${many} ${many === 1 ? what : more}`;
const list = (words) => (words.length < 2 ? words.join("") : `${words.slice(0, -1).join(", ")} and ${words[words.length - 1]}`);
const byteWords = (byte) => {
  const code = parseInt(byte, 16);
  return code > 32 && code < 127 ? `${byte} (${String.fromCharCode(code)})` : byte;
};

/** A message by its kind. */
const kindWords = (message) => `${/^[aeiou]/.test(message.kind) ? "an" : "a"} ${message.kind}`;

/** What a log's new entries keep, as the end of a sentence. */
function notedWords({ before, after }) {
  const fresh = after.log.slice(before.log.length);
  return fresh.map((entry) => `; what stood before goes to node ${after.node}'s log, once for interval ${entry.interval}`).join("");
}

/** How many orders to drop a copy are among what was sent, as a part of a sentence. */
function orders({ line }) {
  const many = line.sent.filter((sent) => sent.message.kind === "inv").length;
  return many === 0 ? "" : `, and tells ${count(many, "node")} to drop ${many === 1 ? "its copy" : "their copies"}`;
}

/** A home's open transaction, with what was lost of it. */
function openWords(open, lostBefore) {
  const lost = lostBefore(open.block).map(({ message, place }) => `message ${message.id}, ${kindWords(message)}, was lost at event ${place}`);
  return `its home's open transaction on block ${open.block} since interval ${open.transaction.begun}${lost.length ? `, of which ${list(lost)}` : ""}`;
}

/** What still holds a node back, in words. */
function holdingWords(unready, lostBefore) {
  return list(
    unready.map((one) => {
      const causes = [
        ...(one.miss ? [`its miss on block ${one.miss.block} since interval ${one.miss.issued}`] : []),
        ...(one.put ? [`its put of block ${one.put.block} since interval ${one.put.issued}`] : []),
        ...one.transactions.map((open) => openWords(open, lostBefore)),
      ];
      return `node ${one.node} (${causes.length ? list(causes) : `it has reported ${one.reported}`})`;
    }),
  );
}

/** A node with what is open at it and at its home since this interval or an earlier one, as the lines of a refused validation have it. */
function openSince(state, node, interval) {
  const { miss, put } = state.nodes[node];
  const began = (one) => (one && one.issued <= interval ? one : null);
  const homes = [...state.homes.values()].filter((home) => home.block % state.nodes.length === node && home.transaction && home.transaction.begun <= interval);
  return { node, reported: state.controller.reported[node], miss: began(miss), put: began(put), transactions: homes };
}

/** Why a recovery goes back to its checkpoint and to no later one: who hasn't reported the next, and what holds them back. */
function pointWords(state, lostBefore) {
  const { point, reported } = state.controller;
  const late = reported.flatMap((number, node) => (number > point ? [] : [openSince(state, node, point)]));
  const held = late.filter((one) => one.miss || one.put || one.transactions.length > 0);
  const who = late.length > 4 ? `${late.length} nodes` : list(late.map((one) => `node ${one.node}`));
  const next = late.length === 0 ? `all nodes have reported checkpoint ${point + 1}, and it isn't validated yet` : `${who} ${late.length === 1 ? "hasn't" : "haven't"} reported checkpoint ${point + 1}`;
  const back = held.length === 0 ? "" : `. Held back: ${holdingWords(held, lostBefore)}`;
  return `${point === 0 ? "the start, because no later one is validated" : "the last one that is validated"}: ${next}${back}`;
}

/** The open transaction that a lost message was part of, as a sentence. */
function partWords(message, state) {
  const open = openAt(state, message.block);
  return open && isOf(message, message.block, open) ? ` It was part of the open transaction of home ${message.block % state.nodes.length} for node ${open.requester} (${open.kind}), begun in interval ${open.begun}.` : "";
}

/** An instruction that is done. */
function retiredWords(it) {
  const { node, line, after } = it;
  const { instruction, did } = line.step;
  const name = (instruction ?? "").split(" ")[0];
  if (!after.core.end.startsWith("running")) return `Core ${node} does its last instruction and has ${after.core.end}.`;
  if (did.out !== null) return `Core ${node} puts the byte ${byteWords(did.out)} out. It is held until its checkpoint is validated.`;
  if (did.read !== null) return `Core ${node} takes the byte ${byteWords(did.read)} of its input.`;
  if (name.startsWith("sc.")) return did.done ? `Core ${node}'s store-conditional is done: ${writtenWords(it)}` : `Core ${node}'s store-conditional fails: its reservation is gone, and nothing is written.`;
  if (did.wrote && name.startsWith("amo")) return `Core ${node} reads ${did.seen} and, in the same step, ${writtenWords(it)}`;
  if (did.wrote) return `Core ${node} ${writtenWords(it)}`;
  if (name.startsWith("lr.")) return `Core ${node} reads ${did.seen} from its cache, and has a reservation on the block.`;
  if (/^l[bhw]u?$/.test(name)) return `Core ${node} reads ${did.seen} from its cache.`;
  return `Core ${node} does an instruction of its registers alone: ${instruction ?? "no instruction"}.`;
}

function writtenWords(it) {
  const { address, value } = it.line.step.did.wrote;
  return `writes ${value} at ${address}, in block ${blockAt(address)}${notedWords(it)}.`;
}

const NO_MESSAGE = "No message in flight has this number. Nothing changes.";
const NO_ROOM = "The network has no room for what would be sent. Nothing changes.";
const LOG_FULL = ({ after }) => `Node ${after.node}'s log is full, so what stood before can't be kept. It must wait until a checkpoint is validated.`;

const SENTENCES = {
  "step retired": retiredWords,
  "step missed": ({ node, after, line }) =>
    `Core ${node} wants to ${after.miss.need} block ${after.miss.block} and ${after.miss.need === "read" ? "has no copy" : "may not write it"}: it asks the block's home, node ${line.sent[0].message.to}.`,
  "step waits": ({ node, after }) => `Core ${node} waits for block ${after.miss ? after.miss.block : after.put.block}.`,
  "step needsevict": ({ node }) => `All ways of the set are taken: a block must be given up before core ${node} can go on.`,
  "step logfull": LOG_FULL,
  "step netfull": NO_ROOM,
  "step ended": ({ node, after }) => `Core ${node} has ${after.core.end} and does nothing more.`,
  "step noinput": ({ node }) => `Core ${node} wants a byte of input, and none is there.`,
  "evict evicted": ({ node, operands }) => `Node ${node} drops its copy of block ${operands[1]}. Nobody need be told.`,
  "evict putbegun": ({ node, operands, line }) => `Node ${node} wants to give block ${operands[1]} back, and asks the home, node ${line.sent[0].message.to}.`,
  "evict notcached": ({ node, operands }) => `Node ${node} has no copy of block ${operands[1]} that it could give up.`,
  "evict putopen": ({ node }) => `Node ${node} is giving a block back already: one at a time.`,
  "evict missopen": ({ node, operands }) => `Node ${node} waits for block ${operands[1]}, and can't give it up now.`,
  "evict netfull": NO_ROOM,
  "edge edged": ({ node, numbers }) => `Node ${node} takes checkpoint ${numbers[0]}: its registers are kept, and its next interval begins.`,
  "edge checkpointsfull": ({ node }) => `Node ${node} has as many checkpoints as it may that aren't validated. It takes no more.`,
  "hop hopped": ({ operands, message, next }) => `Message ${operands[0]}, ${kindWords(message)}, moves on to switch ${switchOf(next, operands[0])}.`,
  "hop lostindead": ({ operands, message, next }) => `Message ${operands[0]}, ${kindWords(message)}, comes to a dead switch and is lost.${partWords(message, next)}`,
  "hop arrived": ({ operands, message }) => `Message ${operands[0]} stands at node ${message.to} already.`,
  "hop nomessage": NO_MESSAGE,
  "deliver held": ({ message, after }) =>
    `Message ${message.id} was sent in interval ${message.tag}, and node ${after.node} is in interval ${after.now}: it must wait, or it would arrive before it was sent.`,
  "deliver homebusy": ({ message }) => `Home ${message.to} is busy with block ${message.block}; the ${message.kind} waits.`,
  "deliver logfull": LOG_FULL,
  "deliver netfull": NO_ROOM,
  "deliver notarrived": ({ message }) => `Message ${message.id} hasn't come to node ${message.to} yet.`,
  "deliver nomessage": NO_MESSAGE,
  "lose lost": ({ operands, message, next }) =>
    `Message ${operands[0]}, ${kindWords(message)} to node ${message.to}${message.kind === "ready" || message.kind === "advance" ? ", is lost." : ` about block ${message.block}, is lost.${partWords(message, next)} Whoever waits for it waits for ever, and no later checkpoint can be validated: only a recovery helps.`}`,
  "lose nomessage": NO_MESSAGE,
  "kill killed": ({ operands }) => `Switch ${operands[0]} is dead: what is in it and what reaches it is lost.`,
  "kill alreadydead": ({ operands }) => `Switch ${operands[0]} is dead already.`,
  "report reported": ({ node, numbers, line, lostBefore }) =>
    line.unready.length === 0
      ? `Node ${node} says that all it began before checkpoint ${numbers[0]} is complete.`
      : `Node ${node} can say no more than that all before checkpoint ${numbers[0]} is complete. It is held back: ${holdingWords(line.unready, lostBefore)}.`,
  "report netfull": NO_ROOM,
  "validate validated": ({ numbers, state, next }) =>
    `Checkpoint ${numbers[0]} is validated: ${count(next.controller.committed - state.controller.committed, "instruction")} more are committed${releasedWords(state, next)}.`,
  "validate notready": ({ line, numbers, lostBefore }) =>
    `The next checkpoint can't be validated: node ${numbers[0]} hasn't reported it. Held back: ${holdingWords(line.unready, lostBefore)}.`,
  "validate netfull": NO_ROOM,
  "recover recovered": ({ numbers, line, state, lostBefore }) =>
    `All nodes go back to checkpoint ${numbers[0]}, ${pointWords(state, lostBefore)}. ${count(Number(numbers[2]), "log entry is", "log entries are")} undone, ${count(Number(numbers[4]), "message is", "messages are")} dropped${takenBackWords(line.recovery.taken_back)}.`,
  "recover cutoff": ({ numbers }) =>
    numbers[0] === numbers[1] ? `Both switches of node ${numbers[0]} are dead: the machine can't recover.` : `No living switches join node ${numbers[0]} and node ${numbers[1]}: the machine can't recover.`,
  "input given": ({ node, operands }) => `Node ${node} is given the byte ${byteWords(operands[1])}.`,
};

const DELIVERED = {
  gets: (it) => `Home ${it.message.to} takes node ${it.message.from}'s wish to read block ${it.message.block}${readWords(it)}${notedWords(it)}.`,
  getm: (it) => `Home ${it.message.to} takes node ${it.message.from}'s wish to write block ${it.message.block}${writeWords(it)}${orders(it)}${notedWords(it)}.`,
  fwdgets: ({ message }) => `Node ${message.to} keeps block ${message.block} as its owner, and sends node ${message.requester} a copy to read.`,
  fwdgetm: (it) => `Node ${it.message.to} gives block ${it.message.block} away and sends it to node ${it.message.requester}${notedWords(it)}.`,
  inv: ({ message }) => `Node ${message.to} has no copy of block ${message.block} any more, and says so to node ${message.requester}.`,
  datas: ({ message }) => `Node ${message.to} has a copy of block ${message.block} and may read it. The transfer counts to interval ${message.tag}, the message's tag.`,
  datam: (it) => `Node ${it.message.to} has block ${it.message.block}${mayWrite(it)}. The transfer counts to interval ${it.message.tag}, the message's tag${notedWords(it)}.`,
  datae: (it) => `Node ${it.message.to} has block ${it.message.block} for itself alone. The transfer counts to interval ${it.message.tag}, the message's tag${notedWords(it)}.`,
  upgok: (it) => `Node ${it.message.to} owns block ${it.message.block} already${mayWrite(it)}.`,
  invack: (it) => `Node ${it.message.to} learns that node ${it.message.from} has no copy of block ${it.message.block} any more${mayWrite(it)}.`,
  unblock: ({ message }) => `The transfer is over: home ${message.to} closes it for node ${message.from}, and would serve others.`,
  putreq: (it) =>
    it.line.sent.some((sent) => sent.message.kind === "putgo")
      ? `Home ${it.message.to} lets node ${it.message.from} give block ${it.message.block} back, and serves nobody else for it until then.`
      : `Node ${it.message.from} doesn't own block ${it.message.block} any more: home ${it.message.to} tells it that there is nothing to give back.`,
  putgo: (it) => `Node ${it.message.to} gives block ${it.message.block} back to its home${notedWords(it)}.`,
  putdata: (it) => `Home ${it.message.to} has block ${it.message.block} again${notedWords(it)}.`,
  putdone: ({ message }) => `Node ${message.to} learns that its put of block ${message.block} is over.`,
  ready: ({ message }) => `The controller learns that node ${message.from} has completed all before checkpoint ${message.checkpoint}.`,
  advance: ({ message, before, after }) =>
    `Node ${message.to} learns that checkpoint ${message.point} is the recovery point${before.log.length > after.log.length ? `, and frees ${count(before.log.length - after.log.length, "log entry", "log entries")}` : ""}.`,
};

function switchOf(state, id) {
  return state.net.messages.find((flight) => flight.message.id === id)?.switch ?? "";
}

function readWords({ line }) {
  const kind = line.sent[0]?.message.kind;
  if (kind === "fwdgets") return `: it passes it on to node ${line.sent[0].message.to}, which owns the block, and serves nobody else for it until the end`;
  return kind === "datae" ? ": nobody else has it, so it gives it for itself alone" : ": it sends a copy";
}

function writeWords({ line, message }) {
  const first = line.sent.find((sent) => sent.message.kind !== "inv")?.message;
  if (first?.kind === "fwdgetm") return `: it passes it on to node ${first.to}, which owns the block, and serves nobody else for it until the end`;
  return first?.kind === "upgok" ? `: node ${message.from} owns it, and need not be sent it` : ": it gives it away";
}

function mayWrite({ after }) {
  if (!after.miss) return ", and may use it";
  return after.miss.fixed === null ? "" : `, but ${count(after.miss.due - after.miss.acks, "other copy", "other copies")} may still be there: it waits`;
}

function releasedWords(state, next) {
  const many = next.controller.released - state.controller.released;
  if (many === 0) return "";
  const bytes = state.controller.held.slice(0, many).map((held) => byteWords(held.byte));
  return many > 8 ? `, and ${many} bytes go to the console` : `, and ${many === 1 ? "the byte" : "the bytes"} ${list(bytes)} ${many === 1 ? "goes" : "go"} to the console`;
}

function takenBackWords(taken) {
  const cores = taken.flatMap((many, node) => (many === 0 ? [] : [node]));
  if (cores.length > 4) return `, and ${cores.length} cores take back ${count(taken.reduce((one, other) => one + other), "instruction")}`;
  return cores.length === 0 ? "" : `, and ${list(cores.map((node) => `core ${node} takes back ${count(taken[node], "instruction")}`))}`;
}

/** What a sentence may speak of. */
function mattersOf(line, story) {
  const [state, next] = [story.state(line.place - 1), story.state(line.place)];
  const [kind, ...operands] = line.event.split(" ");
  const [answer, ...numbers] = line.answer.split(" ");
  const isMessage = kind === "hop" || kind === "deliver" || kind === "lose";
  const message = isMessage ? flightIn(state, operands[0]) : null;
  const node = isMessage ? message?.to : /^[0-9]+$/.test(operands[0] ?? "") ? Number(operands[0]) : undefined;
  return { kind, operands, answer, numbers, message, node, line, state, next, before: state.nodes[node], after: next.nodes[node], lostBefore: (block) => lostOf(story, line.place - 1, block) };
}

/** An event in words. */
function sentenceOf(line, story) {
  const it = mattersOf(line, story);
  const told = it.kind === "deliver" && it.answer === "delivered" ? DELIVERED[it.message.kind] : SENTENCES[`${it.kind} ${it.answer}`];
  return typeof told === "function" ? told(it) : told ?? `${line.event}: ${line.answer}.`;
}

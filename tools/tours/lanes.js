// The picture's pieces: the chosen row, what a recovery would take back now, and the thread of the block's owner lie over them, in a picture of
// their own, so that a browser draws the events but once.

const SVG = "http://www.w3.org/2000/svg";

/** An element of a picture. */
function drawn(tag, attributes) {
  const element = document.createElementNS(SVG, tag);
  for (const [name, value] of Object.entries(attributes)) element.setAttribute(name, value);
  return element;
}

/** The pieces, each with its plan and a layer over it. */
function piecesOf(figures) {
  return [...figures].map((figure) => {
    const viewBox = figure.querySelector("svg").getAttribute("viewBox");
    const layer = drawn("svg", { class: "t-layer", viewBox, "aria-hidden": "true" });
    figure.append(layer);
    return { figure, layer, wide: Number(viewBox.split(" ")[2]), plan: JSON.parse(figure.dataset.plan) };
  });
}

/** The middle of an event's row. */
function rowOf(plan, place) {
  return plan.top + (place - plan.first + 0.5) * plan.row;
}

/** A height, or the end of the lanes that is nearest to it. */
function within(plan, height) {
  return Math.min(Math.max(height, plan.top), plan.top + (plan.last - plan.first + 1) * plan.row);
}

/** A rectangle on a lane between two heights, if there is anything between them in this piece. */
function bar(plan, lane, wide, top, bottom, kind) {
  const [from, to] = [within(plan, top), within(plan, bottom)];
  if (to <= from) return [];
  return [drawn("rect", { class: kind, x: plan.lanes[lane] - wide / 2, y: from, width: wide, height: to - from })];
}

/** The place at which a node's interval of this number began: an edge, a recovery, or 0 for the start. */
function beginOf(story, node, number, place) {
  for (let at = place; at > story.begin - 1; at -= 1) {
    const [before, after] = [story.state(at - 1).nodes[node], story.state(at).nodes[node]];
    if (after.now === number && (before.now !== number || story.line(at).recovery)) return at;
  }
  return story.begin - 1;
}

/** What a recovery would take back after the event at this place: of each lane, all since the recovery point. */
function takenNow(piece, story, place) {
  const { plan } = piece;
  const point = story.state(place).controller.point;
  return plan.lanes.flatMap((_, node) => {
    const begin = beginOf(story, node, point, place);
    const top = begin < story.begin ? -Infinity : rowOf(plan, begin) + (story.line(begin).recovery ? plan.row / 2 : 0);
    return bar(plan, node, plan.band, top, rowOf(plan, place) + plan.row / 2, "t-taken");
  });
}

/** Stretches of events during which a block has one owner: from, to, and whose it is. */
function reignsOf(story, block) {
  const reigns = [];
  for (let place = story.begin - 1; place <= story.end; place += 1) {
    const owner = ownerOf(story.state(place), block);
    const last = reigns[reigns.length - 1];
    if (last && last.owner === owner) last.to = place;
    else reigns.push({ owner, from: place, to: place });
  }
  return reigns;
}

/** The thread of a block's owner. A home that owns it has a thin one beside its lane's middle. */
function threadOf(piece, story, block) {
  const { plan } = piece;
  return reignsOf(story, block).flatMap(({ owner, from, to }) => {
    if (owner === null) return [];
    const lane = owner === "home" ? block % plan.lanes.length : owner;
    const top = from < story.begin ? -Infinity : rowOf(plan, from);
    const bottom = rowOf(plan, to) + plan.row;
    return bar(plan, lane, owner === "home" ? 3 : 7, top, bottom, owner === "home" ? "t-thread t-home" : "t-thread");
  });
}

/** Draws what lies over the events for the chosen place and block. */
function markLanes(pieces, story, place, block) {
  for (const piece of pieces) {
    const { plan, layer } = piece;
    const here = place >= plan.first && place <= plan.last;
    const row = here ? [drawn("rect", { class: "t-row", x: 4, y: rowOf(plan, place) - plan.row / 2, width: plan.right, height: plan.row })] : [];
    layer.replaceChildren(...row, ...takenNow(piece, story, place), ...(block === null ? [] : threadOf(piece, story, block)));
  }
}

/** Moves the picture so that the chosen row stands in the middle. */
function showRow(pieces, place) {
  const piece = pieces.find(({ plan }) => place >= plan.first && place <= plan.last) ?? pieces[0];
  const { figure, plan, wide } = piece;
  const pane = document.getElementById("diagram");
  const here = place >= plan.first && place <= plan.last;
  const height = here ? (rowOf(plan, place) * figure.clientWidth) / wide : 0;
  pane.scrollTop = figure.offsetTop - pane.offsetTop + height - pane.clientHeight / 2;
}

#!/usr/bin/python3
"""Walks through pages of tools/tour in a browser: `tour_browser.py PAGE STATES [PAGE STATES ..]`, STATES being what `replay --states` wrote of the same
replay. Needs Debian's chromium, chromium-driver and python3-selenium.

After each event what the page shows, read from its own elements, is the folded state, with what was lost of a home's open transaction; each event has a
sentence, and a recovery's says why it goes back so far; the legend has the threads that the page lays over the lanes; keys, buttons, slider, fields
and links come to the same place; the browser writes nothing to its console and asks for nothing else. Each answer and each kind of message has its
words. What isn't so is a line on standard error, and the status is 1 then; it is 77 where the browser or what drives it isn't there."""
import json
import re
import sys
import time
from pathlib import Path
from typing import Any, Dict, List, Tuple

from diagram_browser import BROWSER, DRIVER, opened
from folded_states import State, states_of

# What the page shows, as lists of texts, read from its elements.
SHOWN = """
const texts = (all) => [...all].map((one) => one.textContent.trim());
const rows = (name, data) => [...document.querySelectorAll(`#${name} [data-${data}]`)].map((row) => texts(row.children));
return {
  cores: rows("cores", "node"), registers: [...document.querySelectorAll("[data-registers]")].map((row) => [row.dataset.registers, row.textContent.trim()]),
  caches: [...document.querySelectorAll("#caches li")].map((node) => texts(node.querySelectorAll(".t-chip"))),
  misses: [...document.querySelectorAll("#caches li")].map((node) => node.textContent),
  homes: rows("homes", "home"),
  logs: [...document.querySelectorAll("#logs .t-log")].map((node) => texts(node.querySelectorAll("li"))),
  undo: [...document.querySelectorAll("#logs .t-log")].map((node) => node.querySelectorAll("li.t-undo").length),
  messages: [...document.querySelectorAll("#net [data-message]")].map((one) => one.textContent),
  dead: document.querySelector("#net p:last-child").textContent,
  console: texts(document.querySelectorAll("#console dd")),
  sentence: document.getElementById("sentence").textContent, report: document.getElementById("report").textContent,
  place: Number(document.getElementById("place").value), hash: location.hash,
  story: document.getElementById("story").textContent,
  losses: [...document.querySelectorAll("#homes a[data-place], #story p:first-child a[data-place]")].map((link) => Number(link.dataset.place)),
}"""
# What the legends say, and how the threads look there and over the lanes.
LEGEND = """
const look = (one) => [one.getAttribute("class"), one.getAttribute("width"), getComputedStyle(one).fill, getComputedStyle(one).opacity].join(" ");
const looks = (where) => [...new Set([...document.querySelectorAll(`${where} rect.t-thread`)].map(look))];
return {words: [...document.querySelectorAll("g.legend")].map((one) => one.textContent), there: looks("g.legend"), over: looks(".t-layer")}"""
READY = "return document.documentElement.dataset.ready === 'yes'"
ASKED = "return performance.getEntriesByType('resource').length"
GO = "window.tour.page.go(arguments[0], arguments[1])"
NOW = "return window.tour.page.now.place"
WORDED = "return [Object.keys(SENTENCES), Object.keys(DELIVERED)]"
KEY = "document.body.dispatchEvent(new KeyboardEvent('keydown', {key: arguments[0], bubbles: true}))"
CLICK = "document.getElementById(arguments[0]).click()"
PUT = "const field = document.getElementById(arguments[0]); field.value = arguments[1]; field.dispatchEvent(new Event(arguments[2], {bubbles: true}))"
ROOT = Path(__file__).resolve().parent.parent
# What each page of these must say at an event, besides what follows from its states.
TOLD = {
    ("lost_transfer", 7): "It was part of the open transaction of home 0 for node 1 (take), begun in interval 0.",
    ("lost_transfer", 14): "node 0 (its home's open transaction on block 64 since interval 0, of which message 2, a datam, was lost at event 7)",
    ("lost_transfer", 15): "node 0 (its home's open transaction on block 64 since interval 0, of which message 2, a datam, was lost at event 7)",
    ("losses", 14): "It was part of the open transaction of home 0 for node 1 (put), begun in interval 0.",
    ("losses", 15): "since interval 0, of which message 5, a putgo, was lost at event 14)",
    ("losses", 32): "since interval 0, of which message 11, a putdata, was lost at event 31)",
    ("losses", 48): "It was part of the open transaction of home 0 for node 2 (move), begun in interval 0.",
    ("losses", 62): "since interval 0, of which message 19, an unblock, was lost at event 61)",
}
# Of each kind of message that belongs to a home's transaction, the member that names the node for which the transaction is open (docs/PROTOCOL.md).
FOR_WHOM = {
    **dict.fromkeys(("fwdgets", "fwdgetm", "inv"), "requester"), **dict.fromkeys(("datas", "datam", "datae", "upgok", "invack", "putgo"), "to"),
    **dict.fromkeys(("unblock", "putdata"), "from"),
}
# Of each open transaction, by its block, the messages that were lost, each behind the place of the event that lost it.
Losses = Dict[int, List[Tuple[int, Dict[str, Any]]]]


def log_words(entry: Dict[str, Any]) -> str:
    """A log's entry as the page has it."""
    old = {"notowned": "it didn't own it", "owned": "it owned it, with", "washome": "the home owned it, with", "wascache": f"node {entry.get('owner')} owned it"}
    content = f" {entry['content'][:8]}…" if "content" in entry else ""
    return f"interval {entry['interval']}, block {entry['block']}: {old[entry['old']]}{content}"


def lost_by(line: Dict[str, Any], before: State, after: State) -> List[Dict[str, Any]]:
    """The messages that an event lost: at once when it sent them, or out of a switch."""
    flying, still = ({flight["message"]["id"]: flight["message"] for flight in state["net"]["messages"]} for state in (before, after))
    gone = [] if line["answer"] == "delivered" or "recovery" in line else [message for number, message in flying.items() if number not in still]
    return [sent["message"] for sent in line["sent"] if sent["lost"]] + gone


def losses_of(lines: List[Dict[str, Any]], states: List[State]) -> List[Losses]:
    """What was lost of the transactions that are open, before the first event and after each. A transaction that is another, or none, has lost nothing."""
    found: List[Losses] = [{}]
    for line, before, after in zip(lines[1:], states, states[1:]):
        was, opened = ({home["block"]: home["transaction"] for home in state["homes"] if home["transaction"]} for state in (before, after))
        now = {block: lost for block, lost in found[-1].items() if opened.get(block) == was[block]}
        for message in lost_by(line, before, after):
            own = opened.get(message.get("block", -1))
            if own and message.get(FOR_WHOM.get(message["kind"], "")) == own["requester"] and message["kind"].startswith("put") == (own["kind"] == "put"):
                now[message["block"]] = now.get(message["block"], []) + [(line["place"], message)]
        found.append(now)
    return found


def a_kind(message: Dict[str, Any]) -> str:
    """A message by its kind."""
    return f"{'an' if message['kind'][0] in 'aeiou' else 'a'} {message['kind']}"


def lost_words(losses: Losses, block: int) -> str:
    """What was lost of a block's open transaction, as the panes have it."""
    return "".join(f"; message {message['id']} of it, {a_kind(message)}, was lost at event {place}" for place, message in losses.get(block, []))


def open_words(home: Dict[str, Any], losses: Losses) -> str:
    """An open transaction as a sentence has it, from the home's block on."""
    lost = [f"message {message['id']}, {a_kind(message)}, was lost at event {place}" for place, message in losses.get(home["block"], [])]
    return f"its home's open transaction on block {home['block']} since interval {home['transaction']['begun']}" + (f", of which {and_list(lost)}" if lost else "")


def wanted(state: State, losses: Losses) -> Dict[str, Any]:
    """What the page must show of a state."""
    nodes, controller = state["nodes"], state["controller"]
    reserved = ["" if node["core"]["reservation"] is None else str(node["core"]["reservation"]) for node in nodes]
    homes = [
        [str(home["block"]), str(home["block"] % len(nodes)), "the home" if home["owner"] is None else f"node {home['owner']}", " ".join(map(str, home["sharers"])),
         f"{home['transaction']['kind']} for node {home['transaction']['requester']}, begun in interval {home['transaction']['begun']}{lost_words(losses, home['block'])}" if home["transaction"] else ""]
        for home in state["homes"]
    ]
    return {
        "cores": [[str(node["node"]), str(node["now"]), str(node["known"]), node["core"]["pc"], node["core"]["end"], own] for node, own in zip(nodes, reserved)],
        "caches": [[f"{line['state']} {line['block']}" for line in node["lines"]] for node in nodes],
        "homes": homes,
        "logs": [[log_words(entry) for entry in node["log"]] for node in nodes],
        "undo": [sum(entry["interval"] >= controller["point"] for entry in node["log"]) for node in nodes],
        "dead": f"Dead: {and_list(state['net']['dead'])}." if state["net"]["dead"] else "All switches live.",
    }


def and_list(words: List[str]) -> str:
    """Words as a list in a sentence."""
    return words[0] if len(words) < 2 else f"{', '.join(words[:-1])} and {words[-1]}"


def recovery_words(before: State, losses: Losses) -> List[str]:
    """What the sentence of a recovery from this state must have: which checkpoint it goes back to, which one isn't there, and what holds that back."""
    point, words = before["controller"]["point"], []
    for node, reported in zip(before["nodes"], before["controller"]["reported"]):
        if reported > point:
            continue
        words += [f"its {name} o{'n' if name == 'miss' else 'f'} block {node[name]['block']} since" for name in ("miss", "put") if node[name] and node[name]["issued"] <= point]
        own = [home for home in before["homes"] if home["block"] % len(before["nodes"]) == node["node"] and home["transaction"]]
        words += [open_words(home, losses) for home in own if home["transaction"]["begun"] <= point]
    return [f"All nodes go back to checkpoint {point}, the {'last one' if point else 'start'}", f"reported checkpoint {point + 1}"] + words


def state_faults(shown: Dict[str, Any], state: State, losses: Losses) -> List[str]:
    """Where the page doesn't show this state."""
    faults = [f"{name}: shown {shown[name]}, and it is {value}" for name, value in wanted(state, losses).items() if shown[name] != value]
    registers = {int(node): text for node, text in shown["registers"]}
    for node in state["nodes"]:
        held = {name: value for name, value in re.findall(r"(x[0-9]+)=([0-9a-f]{8})", registers.get(node["node"], "")) if value != "00000000"}
        if held != node["core"]["registers"]:
            faults.append(f"registers of node {node['node']}: shown {held}, and they are {node['core']['registers']}")
        for name in ("miss", "put"):
            words = shown["misses"][node["node"]]
            if node[name] and f"block {node[name]['block']} since interval {node[name]['issued']}" not in words:
                faults.append(f"the {name} of node {node['node']} isn't in: {words}")
    for text, flight in zip(shown["messages"], state["net"]["messages"]):
        message = flight["message"]
        if not text.startswith(f"{message['id']}: {message['kind']} from {message['from']} to {message['to']}, tag {message['tag']}, ") or not text.endswith(f" in switch {flight['switch']}"):
            faults.append(f"message {message['id']} is shown as: {text}")
    if len(shown["messages"]) != len(state["net"]["messages"]):
        faults.append(f"{len(shown['messages'])} messages are shown, and {len(state['net']['messages'])} are in flight")
    controller = state["controller"]
    if shown["console"][0] != f"checkpoint {controller['point']}" or shown["console"][2].split(" ")[0] != str(controller["committed"]):
        faults.append(f"the recovery point is shown as {shown['console']}")
    return faults


def walked(browser: Any, page: str, lines: List[Dict[str, Any]], states: List[State]) -> List[str]:
    """What isn't so at some event of the page of this name, which is open."""
    faults: List[str] = []
    begin, losses = lines[0]["events"], losses_of(lines, states)
    for number, state in enumerate(states):
        block = next(iter(losses[number]), None)
        browser.execute_script(GO, begin + number, *([] if block is None else [block]))
        shown = browser.execute_script(SHOWN)
        told = [] if number == 0 else [f"{lines[number]['place']} {lines[number]['event']}: {lines[number]['answer']}"]
        faults += [f"event {begin + number}: {fault}" for fault in state_faults(shown, state, losses[number])]
        places = [place for lost in losses[number].values() for place, _ in lost]
        if block is not None and (lost_words(losses[number], block) not in shown["story"] or not set(places) <= set(shown["losses"])):
            faults.append(f"event {begin + number}: what was lost of block {block}'s transaction isn't in its story, or no link leads to it: {shown['story']}")
        if not shown["sentence"] or "undefined" in shown["sentence"] or (told and shown["report"] != told[0]):
            faults.append(f"event {begin + number}: it says \"{shown['sentence']}\" of {shown['report']}")
        due = recovery_words(states[number - 1], losses[number - 1]) if told and lines[number]["answer"].startswith("recovered") else []
        due += [open_words(home, losses[number - 1]) for one in (lines[number].get("unready", []) if told else []) for home in one["transactions"]]
        due += [TOLD[page, begin + number]] if (page, begin + number) in TOLD else []
        faults += [f"event {begin + number}: \"{words}\" isn't in \"{shown['sentence']}\"" for words in due if words not in shown["sentence"]]
    return faults


def movement_faults(browser: Any, lines: List[Dict[str, Any]]) -> List[str]:
    """Where keys, buttons, slider, fields and links don't come to the same place."""
    first, events = lines[0]["events"], [line for line in lines if "place" in line]
    last = first + len(events)
    faults: List[str] = []

    def expect(place: int, what: str) -> None:
        found = int(browser.execute_script(NOW))
        if found != place:
            faults.append(f"{what} comes to {found}, and not to {place}")

    for key, button, place in (("End", "to-last", last), ("ArrowLeft", "to-back", max(first, last - 1)), ("Home", "to-first", first), ("ArrowRight", "to-forward", min(first + 1, last))):
        for script, word in ((KEY, key), (CLICK, button)):
            browser.execute_script(GO, {"to-last": first, "to-back": last, "to-first": last, "to-forward": first}[button])
            browser.execute_script(script, word)
            expect(place, word)
    for key, button, begins in (("r", "to-recovery", "recovered"), ("v", "to-validation", "validated")):
        found = [line["place"] for line in events if line["answer"].startswith(begins)]
        for script, word in ((KEY, key), (CLICK, button)):
            browser.execute_script(GO, first)
            browser.execute_script(script, word)
            expect(found[0] if found else first, word)
    middle = (first + last) // 2
    for name, event in (("slider", "input"), ("place", "change")):
        browser.execute_script(GO, first)
        browser.execute_script(PUT, name, str(middle), event)
        expect(middle, name)
    browser.execute_script("location.hash = arguments[0]", f"#event={last}&block=64")
    time.sleep(0.2)
    expect(last, "a link")
    for word, block in (("80001040", 65), ("64", 64)):
        browser.execute_script(PUT, "block", word, "change")
        if browser.execute_script("return window.tour.page.now.block") != block:
            faults.append(f"block {word} isn't found")
    return faults


def word_faults(browser: Any) -> List[str]:
    """Answers of docs/FORMATS.md and kinds of messages of the schema for which there are no words."""
    told, delivered = browser.execute_script(WORDED)
    formats = (ROOT / "docs" / "FORMATS.md").read_text(encoding="utf-8")
    listed = formats.split("The answer is its name in lower case")[1].split("K is a checkpoint")[0]
    answers = {words.split(" ")[0] for words in re.findall(r"`([a-z]+(?: [^`]*)?)`", listed)}
    kinds = json.loads((ROOT / "docs" / "states.schema.json").read_text(encoding="utf-8"))["definitions"]["message"]["properties"]["kind"]["enum"]
    faults = [f"no sentence has the answer {answer}" for answer in sorted(answers - {"delivered"}) if not any(key.endswith(f" {answer}") for key in told)]
    return faults + [f"no sentence has the message {kind}" for kind in kinds if kind not in delivered]


def legend_faults(browser: Any) -> List[str]:
    """Where the legend doesn't have a thread that lies over the lanes, as it looks there."""
    legend = browser.execute_script(LEGEND)
    meanings = ("the chosen block's owner: a cache", "the chosen block's owner: its home")
    faults = [f"a legend lacks \"{meaning}\"" for meaning in meanings for words in legend["words"] if meaning not in words]
    return faults + [f"the legend has no thread that looks as {look}" for look in legend["over"] if look not in legend["there"]]


def faults_of(browser: Any, page: Path, text: str) -> List[str]:
    """What isn't so of a page."""
    started = time.monotonic()
    browser.get(page.resolve().as_uri())
    while not browser.execute_script(READY) and time.monotonic() < started + 20:
        time.sleep(0.02)
    seconds = time.monotonic() - started
    lines = [json.loads(line) for line in text.splitlines() if not line.startswith("#")]
    states = list(states_of(text))
    faults = walked(browser, page.stem, lines, states) + legend_faults(browser) + movement_faults(browser, lines) + word_faults(browser)
    faults += [f"the console says {entry['message']}" for entry in browser.get_log("browser")]
    if browser.execute_script(ASKED) != 0:
        faults.append("something else was asked for")
    print(f"{page.name}: {len(states) - 1} events, open after {seconds:.1f} s")
    return faults


def main(given: List[str]) -> int:
    """Walks through the pages, and returns 1 where something isn't so."""
    try:
        browser = opened() if BROWSER.exists() and DRIVER.exists() else None
    except ImportError:
        browser = None
    if browser is None:
        return 77
    status = 0
    try:
        for page, states in zip(given[::2], given[1::2]):
            for fault in faults_of(browser, Path(page), Path(states).read_text(encoding="ascii"))[:10]:
                print(f"{page}: {fault}", file=sys.stderr)
                status = 1
    finally:
        browser.quit()
    return status


if __name__ == "__main__":
    sys.exit(main(sys.argv[1:]))

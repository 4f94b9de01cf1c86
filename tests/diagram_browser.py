#!/usr/bin/python3
"""Opens pictures of tools/diagram in a browser: `diagram_browser.py PICTURE..`. Needs Debian's chromium, chromium-driver and python3-selenium.

The browser writes nothing to its console and asks for nothing else, no two texts share room, no text reaches past the picture's edge, and the
colours on a dark page are others than on a light one. What isn't so is a line on standard error, and the status is 1 then; it is 77 where the
browser or what drives it isn't there."""
import sys
from pathlib import Path
from typing import Any, List

BROWSER, DRIVER = Path("/usr/bin/chromium"), Path("/usr/bin/chromedriver")
# Of each text its words and its box, in the picture's own units.
TEXTS = """return [...document.querySelectorAll('text')].map(text => {
  const box = text.getBBox(); return [text.textContent, box.x, box.y, box.x + box.width, box.y + box.height] })"""
SIZE = "const all = document.documentElement.viewBox.baseVal; return [all.width, all.height]"
ASKED = "return performance.getEntriesByType('resource').length"
PAPER = "return getComputedStyle(document.querySelector('rect')).fill"
# Boxes may touch by so much: a font's box is a little larger than its letters.
TOUCH = 0.5


def opened() -> Any:
    """A browser without a window."""
    from selenium import webdriver
    from selenium.webdriver.chrome.options import Options
    from selenium.webdriver.chrome.service import Service

    options: Any = Options()
    options.binary_location = str(BROWSER)
    for word in ("--headless=new", "--no-sandbox", "--disable-gpu", "--window-size=1200,800"):
        options.add_argument(word)
    options.set_capability("goog:loggingPrefs", {"browser": "ALL"})
    return webdriver.Chrome(service=Service(str(DRIVER)), options=options)


def overlaps(texts: List[List[Any]]) -> List[str]:
    """Each pair of texts that share room."""
    faults = []
    ordered = sorted(texts, key=lambda text: float(text[2]))
    for place, one in enumerate(ordered):
        for other in ordered[place + 1 :]:
            if other[2] > one[4] - TOUCH:
                break
            if one[1] < other[3] - TOUCH and other[1] < one[3] - TOUCH:
                faults.append(f"'{one[0]}' and '{other[0]}' share room")
    return faults


def paper(browser: Any, scheme: str) -> str:
    """The colour of the picture's ground where the reader wishes for light or dark pages."""
    browser.execute_cdp_cmd("Emulation.setEmulatedMedia", {"features": [{"name": "prefers-color-scheme", "value": scheme}]})
    return str(browser.execute_script(PAPER))


def faults_of(browser: Any, picture: Path) -> List[str]:
    """What isn't so of a picture."""
    browser.get(picture.resolve().as_uri())
    texts = browser.execute_script(TEXTS)
    wide, high = browser.execute_script(SIZE)
    faults = overlaps(texts)
    faults += [f"'{text[0]}' reaches past the edge" for text in texts if text[1] < 0 or text[2] < 0 or text[3] > wide or text[4] > high]
    faults += [f"the console says {entry['message']}" for entry in browser.get_log("browser")]
    if browser.execute_script(ASKED) != 0:
        faults.append("something else was asked for")
    if paper(browser, "light") == paper(browser, "dark"):
        faults.append("a dark page is as light as a light one")
    return faults + ([] if texts else ["there is no text"])


def main(given: List[str]) -> int:
    """Opens the pictures, and returns 1 where something isn't so."""
    try:
        browser = opened() if BROWSER.exists() and DRIVER.exists() else None
    except ImportError:
        browser = None
    if browser is None:
        return 77
    status = 0
    try:
        for name in given:
            for fault in faults_of(browser, Path(name))[:10]:
                print(f"{name}: {fault}", file=sys.stderr)
                status = 1
    finally:
        browser.quit()
    return status


if __name__ == "__main__":
    sys.exit(main(sys.argv[1:]))

"""Colours, lines and letters. The colours are Okabe and Ito's, which people with any colour vision tell apart; each has a form of its own too,
so that a picture can be printed without colour. A reader's wish for dark pages is met on a screen, and paper stays white."""

SANS = "'Source Sans 3','Segoe UI','Helvetica Neue',Helvetica,Arial,'DejaVu Sans',sans-serif"
EQUAL = "'DejaVu Sans Mono',Menlo,Consolas,'Liberation Mono',monospace"

# Class by class: what is filled, what is drawn. The pairs are the light and the dark colour.
INKS = {
    "ink": ("#1b1b1f", "#ececf1"),
    "soft": ("#5a5a63", "#a9a9b4"),
    "pale": ("#767680", "#8e8e99"),
    "hair": ("#d9d9df", "#3a3a43"),
    "paper": ("#ffffff", "#17171b"),
    "even": ("#f1f1f4", "#25252b"),
    "odd": ("#e3e3e9", "#32323a"),
    "asks": ("#0072b2", "#56b4e9"),
    "gives": ("#d55e00", "#ff8f3f"),
    "says": ("#1b1b1f", "#ececf1"),
    "point": ("#00805c", "#2fc79c"),
    "back": ("#a8487f", "#e79ac6"),
}

FORMS = f"""text{{font:11px {SANS}}}
.equal{{font:11px {EQUAL}}}
.small{{font-size:10px}}
.title{{font-size:{15}px;font-weight:600}}
.head{{font-size:12.5px;font-weight:600}}
.number{{font-weight:600}}
.end{{text-anchor:end}}
.middle{{text-anchor:middle}}
.halo{{paint-order:stroke;stroke-width:3px;stroke-linejoin:round}}
path,circle,rect{{fill:none;stroke-linecap:butt}}
.line{{stroke-width:1.3}}
.thick{{stroke-width:2.6}}
.double{{stroke-width:4.6}}
.core{{stroke-width:1.5}}
.waits{{stroke-dasharray:3 3}}
.hop,.gate,.tick{{stroke-width:1.6}}
.cross{{stroke-width:2.4}}
.axis{{stroke-width:1}}
.guide{{stroke-width:1;stroke-dasharray:1 3}}
.cut{{stroke-width:2.6;stroke-linejoin:round}}
.edge{{stroke-width:2}}
.border{{stroke-width:1;stroke-dasharray:6 4}}
.outline{{stroke-width:1.6}}
.hatch{{stroke-width:1.1}}
rect.hatched{{fill:url(#hatch)}}
"""


def colours(which: int) -> str:
    """The rules for the colours: the light ones are 0, the dark ones 1."""
    rules = [f".f-{name}{{fill:{pair[which]}}}.s-{name}{{stroke:{pair[which]}}}" for name, pair in INKS.items()]
    return "\n".join(rules)


def sheet() -> str:
    """The style of a picture, as its element."""
    paper = (INKS["paper"][0], INKS["paper"][1])
    return (
        f"<style>\n{FORMS}{colours(0)}\n.halo{{stroke:{paper[0]}}}\n"
        f"@media screen and (prefers-color-scheme:dark){{\n{colours(1)}\n.halo{{stroke:{paper[1]}}}\n}}\n</style>\n"
    )

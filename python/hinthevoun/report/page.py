"""The page: one file of HTML with everything in it, which asks for nothing from anywhere."""
from collections import Counter
from html import escape
from typing import List, NamedTuple, Tuple

from ..picture.paper import STYLE, Paper, Wishes, paper_of
from ..saying import count
from .judging import KINDS, Verdict
from .pairs import Side

CSS = STYLE + """
body { font: 16px/1.4 sans-serif; margin: 1.5em; color: #222 }
h1 { font-size: 1.4em } h2 { font-size: 1.1em; margin: 0 }
.cards { display: grid; grid-template-columns: repeat(auto-fill, minmax(22em, 1fr)); gap: 1em }
.card { border: 1px solid #bbb; border-radius: 6px; padding: 1em; background: white }
.kind { font-weight: bold } .bad .kind { color: #d00000 } .good .kind { color: #00664a }
.card ul { margin: .4em 0; padding-left: 1.2em }
.picture { display: block; width: 100%; padding: 0; border: 0; background: none; cursor: zoom-in }
.picture svg { display: block; width: 100%; height: 18em }
.card.large { position: fixed; inset: 0; z-index: 1; overflow: auto; border: 0; border-radius: 0 }
.card.large .picture { cursor: zoom-out } .card.large svg { height: calc(100vh - 11em) }
.card:not(.large) .words { display: none }
.behind { overflow: hidden }
.hint { color: #555 }
@media print { .card { break-inside: avoid } }
"""

# A click on a picture, or Enter, shows it large with all its words; another, or Escape, puts it back.
SCRIPT = """
function show(card, large) {
  const button = card.querySelector('.picture'), svg = button.querySelector('svg');
  card.classList.toggle('large', large);
  button.setAttribute('aria-expanded', large);
  svg.setAttribute('viewBox', large ? svg.dataset.whole : svg.dataset.drawing);
  svg.setAttribute('preserveAspectRatio', large ? 'xMinYMin meet' : 'xMidYMid meet');
  document.body.classList.toggle('behind', large);
}
document.addEventListener('click', event => {
  const button = event.target.closest('.picture');
  if (button) { const card = button.closest('.card'); show(card, !card.classList.contains('large')); }
});
document.addEventListener('keydown', event => {
  if (event.key === 'Escape') document.querySelectorAll('.card.large').forEach(card => show(card, false));
});
"""


class Entry(NamedTuple):
    """A drawing on the page."""

    name: str
    old: Side
    new: Side
    verdict: Verdict


def svg_of(paper: Paper) -> str:
    """The picture in the page: small it shows the drawing alone, large all of the paper. A page has an id only once."""
    drawing = " ".join(f"{number:.6g}" for number in paper.area)
    whole = f"0 0 {paper.width} {paper.height}"
    body = "\n".join([*paper.drawing, '<g class="words">', *paper.words, "</g>"]).replace(' id="', ' class="')
    return (f'<svg xmlns="http://www.w3.org/2000/svg" viewBox="{drawing}" data-drawing="{drawing}" data-whole="{whole}">'
            f"\n{body}\n</svg>")


def picture_of(entry: Entry, wishes: Wishes) -> str:
    """Both drawings over each other, or the one that there is."""
    lists = [side.found for side in (entry.old, entry.new) if side.found]
    if not lists:
        return ""
    return (f'<button class="picture" aria-expanded="false" title="click to see it large">'
            f"{svg_of(paper_of(lists, wishes))}</button>")


def card_of(entry: Entry, wishes: Wishes) -> str:
    """What the page shows of one drawing."""
    verdict = entry.verdict
    mood = "good" if verdict.kind == "the same" else "bad"
    said = "".join(f"<li>{escape(sentence)}</li>" for sentence in verdict.sentences)
    return (f'<section class="card {mood}"><h2>{escape(entry.name)}</h2><div class="kind">{verdict.kind}</div>'
            f"<ul>{said}</ul>{picture_of(entry, wishes)}</section>\n")


def summary_of(entries: List[Entry]) -> str:
    """How many there are of each kind."""
    kinds = Counter(entry.verdict.kind for entry in entries)
    return "; ".join([count(len(entries), "drawing"), *(f"{kind}: {kinds[kind]:,}" for kind in KINDS if kinds[kind])])


def page_of(folders: Tuple[str, str], entries: List[Entry], left_out: List[str], wishes: Wishes) -> List[str]:
    """The page, in parts; the entries are in order, worst first."""
    old, new = escape(folders[0]), escape(folders[1])
    left = f"<p>Left out, since neither name nor beginning is that of a sheet or a list: {escape(', '.join(left_out))}</p>"
    return [
        '<!DOCTYPE html>\n<html lang="en"><head><meta charset="utf-8">'
        '<meta name="viewport" content="width=device-width, initial-scale=1">'
        f"<title>{old} and {new}</title>\n<style>{CSS}</style></head>\n<body>\n",
        f"<h1>Old: {old}. New: {new}.</h1>\n<p>{escape(summary_of(entries))}. The worst come first.</p>\n",
        '<p class="hint">Blue and wide is the old drawing, orange and narrow the new one; what only one has is stronger, '
        "and a red ring is an open point. Click a picture to see it large, with all its words.</p>\n",
        '<div class="cards">\n', *(card_of(entry, wishes) for entry in entries), "</div>\n", left if left_out else "",
        f"\n<script>{SCRIPT}</script>\n</body></html>\n"]

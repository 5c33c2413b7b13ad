"""The random scenes that the oracle made, as sheets: those of crates/replay_scenes/stdin, whose form docs/ORACLE.md tells."""
import re

from support import ROOT

MOST_WORDS, MOST_BOXES = 1024, 16  # which flatlist takes


def scenes():
    """Each scene's head of 18 words, and the words of the scene."""
    text = (ROOT / "crates/replay_scenes/stdin").read_text()
    tokens = iter(re.findall(r"([0-9a-f]{8})(\*?)", text))
    for first, _ in tokens:
        head = [int(first, 16), *(int(next(tokens)[0], 16) for _ in range(17))]
        scene, patches, boxes = (taken(tokens, count) for count in (head[5], 2 * head[9], 6 * head[7]))
        assert len(patches) == 2 * head[9] and len(boxes) == 6 * head[7]
        yield head, scene


def taken(tokens, count):
    """So many words; one with a star stands as often as the next says."""
    words = []
    while len(words) < count:
        word, star = next(tokens)
        words += [int(word, 16)] * (int(next(tokens)[0], 16) if star else 1)
    assert len(words) == count, "a run goes past the end of its part"
    return words


def sheets():
    """The scenes that fit on flatlist's sheets, as their text."""
    for head, scene in scenes():
        if len(scene) <= MOST_WORDS and head[7] <= MOST_BOXES:
            yield "".join(f"{word:08x}\n" for word in [*head[:5], head[7], *scene])

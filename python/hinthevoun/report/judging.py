"""Judging: what is to be said of two drawings, and how bad it is."""
from typing import List, NamedTuple, Tuple

from ..picture.counting import Found, shared_and_alone
from ..picture.ink import rule_of
from ..picture.telling import about_boxes, lacks_of
from ..saying import count
from .pairs import Side

KINDS = ("not read", "refused", "only in one folder", "ink differs", "lines differ", "boxes differ", "open points",
         "the same")
MOST_RULES = 10  # paths whose rules are told


class Verdict(NamedTuple):
    """Its kind, of KINDS, the worst first; what else tells the worse of two; and sentences."""

    kind: str
    weight: Tuple[int, ...]
    sentences: List[str]

    def order(self) -> Tuple[int, ...]:
        """The worst comes first."""
        return (KINDS.index(self.kind), *(-n for n in self.weight))


def gaps_in(found: Found) -> int:
    """How many open points a drawing has."""
    return sum(len(outline.open) for outline in found.outlines)


def lines_alone(old: Found, new: Found) -> Tuple[int, int, int]:
    """How many lines both have, only the old one, only the new one."""
    shared, alone = shared_and_alone(old.lines, new.lines)
    both = len(shared.paths)
    return both, len(alone.paths), len(new.lines.paths) - both


def about_rules(old: Found, new: Found) -> List[str]:
    """The paths that are inked by another rule, so that an opening may have become solid, or a solid part open."""
    paths = {outline.path for found in (old, new) for outline in found.outlines if outline.lines.paths}
    rules = {path: (rule_of(old, path), rule_of(new, path)) for path in sorted(paths)}
    said = [f"path {path}: ink by the {before} rule in the old, by the {behind} rule in the new"
            for path, (before, behind) in rules.items() if before != behind]
    left = len(said) - MOST_RULES
    return said[:MOST_RULES] + ([f"and {count(left, 'more path')} with another rule"] if left > 0 else [])


def kind_of(old: Found, new: Found, rules: List[str], differ: int, gaps: int) -> str:
    """The worst that there is to say of two drawings."""
    if old.refusal or new.refusal:
        return "refused"
    if rules:
        return "ink differs"
    if differ:
        return "lines differ"
    if old.boxes != new.boxes:
        return "boxes differ"
    return "open points" if gaps else "the same"


def about_both(old: Found, new: Found) -> Verdict:
    """Two drawings that are there."""
    both, only_old, only_new = lines_alone(old, new)
    gaps, rules = (gaps_in(old), gaps_in(new)), about_rules(old, new)
    said = [*rules,
            f"{count(both, 'line')} in both, {only_old:,} only in the old, {only_new:,} only in the new",
            about_boxes(old, new),
            f"{count(gaps[0], 'open point')} in the old, {gaps[1]:,} in the new"]
    lacks = [f"{which}: {lack}" for which, found in (("old", old), ("new", new)) for lack in lacks_of(found)]
    differ = only_old + only_new
    return Verdict(kind_of(old, new, rules, differ, sum(gaps)), (differ, sum(gaps)), lacks + said)


def about_one(found: Found, which: str) -> Verdict:
    """A drawing that only one folder has."""
    other = "new" if which == "old" else "old"
    said = [f"only in the {which} folder: the {other} one has no such drawing", *lacks_of(found),
            f"{count(len(found.lines.paths), 'line')}, {count(gaps_in(found), 'open point')}"]
    return Verdict("refused" if found.refusal else "only in one folder", (len(found.lines.paths), gaps_in(found)), said)


def verdict_of(old: Side, new: Side) -> Verdict:
    """What is to be said of a pair."""
    wrong = [side.wrong for side in (old, new) if side.wrong]
    if wrong:
        return Verdict("not read", (len(wrong),), [f"not read: {why}" for why in wrong])
    if old.found and new.found:
        return about_both(old.found, new.found)
    if old.found:
        return about_one(old.found, "old")
    assert new.found, "a pair has a file"
    return about_one(new.found, "new")

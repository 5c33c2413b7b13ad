"""The refusals: the one place of the package that says what their numbers mean."""
from typing import Dict, NamedTuple


class Reason(NamedTuple):
    """Why a call is refused, in the words of docs/FLATLIST.md, and what to mend."""

    why: str
    cure: str


REASONS: Dict[int, Reason] = {
    1: Reason("tag base or data base lies past the scene's end",
              "the file was cut short or its head is wrong: export it again"),
    2: Reason("a read falls outside the scene, or an address passes 2^32 - 1",
              "a point, transform or style is missing: export the sheet again, or mend what tag and bases count"),
    3: Reason("a needed tag prefix is missing", "lend the prefixes that the scan fills, one for each word of tags"),
    4: Reason("a path tag names a box that is not there", "raise the sheet's sixth word, the number of boxes"),
    5: Reason("a line has a coordinate that is not a number",
              "a point is damaged, or a number grew too large: redraw that piece"),
    6: Reason("no room for the next line", "lend more room, or part the drawing"),
    7: Reason("the join bits are 3 and a join is drawn", "choose bevel, miter or round again in the style"),
    8: Reason("the count of a curve's pieces is not a number",
              "a point is damaged, or of a stroke the line width, or a number grew too large: redraw that piece"),
    9: Reason("a transform has a NaN or an infinity among its six numbers",
              "the transform is damaged: place or scale that part of the drawing again"),
}

# The same of refusal 5 where it is told which end of the line it was.
ENDS: Dict[int, Reason] = {
    1: Reason("the start of a line is not a number",
              "a point is damaged, of a stroke perhaps the marker's, or a number grew too large: redraw that piece"),
    2: Reason("the end of a line is not a number",
              "a point is damaged, or a number grew too large: redraw that piece"),
}
UNKNOWN = Reason("a refusal that this package does not know", "install the package that came with the library")


class Refusal(Exception):
    """A call that the library refused.

    number  which refusal, as include/hinthevoun.h counts them
    tag     the index of the tag in turn
    count   how many whole lines are stored; of a scan, how many prefixes
    end     with refusal 5, which end of the line is not a number: 1 its start, 2 its end alone; else 0
    """

    def __init__(self, number: int, tag: int = 0, count: int = 0, end: int = 0) -> None:
        super().__init__(number, tag, count, end)
        self.number, self.tag, self.count, self.end = number, tag, count, end

    @property
    def reason(self) -> Reason:
        """Why, and what to mend."""
        return ENDS[self.end] if self.end in ENDS else REASONS.get(self.number, UNKNOWN)

    @property
    def sentence(self) -> str:
        """All of it in one sentence."""
        return f"refused {self.number} at tag {self.tag}: {self.reason.why}"

    def __str__(self) -> str:
        return self.sentence

"""The paths of an SVG document in their order, each with the transforms of its groups; and what is not imported, with the reason.

Nothing is guessed: what changes how a path is drawn and is not understood here makes it one that is not imported.
"""
import re
from typing import Dict, List, NamedTuple, Optional, Tuple
from xml.parsers import expat

from ..errors import Wrong
from ..saying import printable
from .placing import IDENTITY, Matrix, NotPlaced, matrix_of

SVG = "http://www.w3.org/2000/svg "
GROUPS = ("g", "a")
# What is drawn and is no path.
SHAPES = ("rect", "circle", "ellipse", "line", "polyline", "polygon", "text", "image", "use", "foreignObject")
RULES = {"nonzero": False, "evenodd": True}
# What keeps a path from being drawn as its data say.
CHANGING = ("clip-path", "mask", "transform-origin", "transform-box", "systemLanguage", "requiredExtensions", "requiredFeatures")
# What CSS could say in place of attributes; its forms are other ones.
ONLY_IN_CSS = ("transform", "translate", "rotate", "scale", "offset", "offset-path", "d", "all")
_SHEET = re.compile(rf"(?<![\w-])({'|'.join(('fill-rule', 'display', 'visibility', *CHANGING, *ONLY_IN_CSS))})\s*:|@import", re.I)
_COMMENT = re.compile(r"/\*.*?\*/", re.S)


class Found(NamedTuple):
    """A path or another shape.

    name       as sentences have it: path 'brim' (line 7)
    ids        its own id and those of the groups that it stands in
    data       its path data, as UTF-8
    transform  its own behind those of its groups
    even_odd   whether fill-rule is evenodd
    why        why it is not imported, or nothing
    own_id     its own id, or nothing
    """

    name: str
    ids: Tuple[str, ...]
    data: bytes
    transform: Matrix
    even_odd: bool
    why: str
    own_id: str = ""


class Document(NamedTuple):
    """What is read of a drawing.

    found       its paths and shapes, in its order
    attributes  those of its outermost element, which say how large it is
    sheets      the text of its style sheets, without comments
    """

    found: List[Found]
    attributes: Dict[str, str]
    sheets: str


class Frame(NamedTuple):
    """What an element hands to those within it."""

    ids: Tuple[str, ...] = ()
    transform: Matrix = IDENTITY
    even_odd: bool = False
    visible: bool = True
    why: str = ""


def is_svg(document: bytes) -> bool:
    """Whether it begins as XML does."""
    return document.lstrip(b"\xef\xbb\xbf \t\r\n").startswith(b"<") or document[:2] in (b"\xfe\xff", b"\xff\xfe")


def document_of(name: str, data: bytes) -> Document:
    """A document with all its paths and shapes. Raises Wrong where it is no SVG, or has a style sheet that matters."""
    reader = _Reader(name)
    try:
        reader.parser.Parse(data, True)
    except expat.ExpatError as error:
        why = expat.errors.messages[error.code]
        raise Wrong(f"{name}:{error.lineno}: {why}: it is damaged, or no SVG: save it again") from None
    return Document(reader.found, reader.attributes, " ".join(reader.sheets))


def found_in(name: str, data: bytes) -> List[Found]:
    """All paths and shapes of a document, in its order. Raises Wrong as `document_of` does."""
    return document_of(name, data).found


class _Reader:
    """Follows the elements as they begin and end."""

    def __init__(self, name: str) -> None:
        self.name, self.found, self.frames = name, [], []  # type: str, List[Found], List[Frame]
        self.attributes: Dict[str, str] = {}  # of the outermost element
        self.sheets: List[str] = []
        self.sheet: Optional[List[str]] = None  # the text of a style sheet while it is read
        self.parser = expat.ParserCreate(namespace_separator=" ")
        self.parser.buffer_text = True
        self.parser.StartElementHandler = self.begins
        self.parser.EndElementHandler = self.ends
        self.parser.CharacterDataHandler = self.says
        self.parser.ProcessingInstructionHandler = self.instructs

    def begins(self, element: str, attributes: Dict[str, str]) -> None:
        """An element, with what it says of itself."""
        kind = element[len(SVG):] if element.startswith(SVG) else ""
        if not self.frames:
            self.frames.append(self.outermost(element, kind, attributes))
            return
        frame = self.within(self.frames[-1], attributes)
        if kind == "path" or kind in SHAPES:
            self.found.append(self.shape(kind, attributes, frame))
        if kind == "style":
            self.sheet = []
        if kind not in GROUPS and not frame.why:
            frame = frame._replace(why=f"it stands in {printable(kind or element)!r}, and only what stands in groups is imported")
        self.frames.append(frame)

    def outermost(self, element: str, kind: str, attributes: Dict[str, str]) -> Frame:
        """The document's own element, whose units are those of the sheet."""
        if kind != "svg":
            raise Wrong(f"{self.name}: its outermost element is {printable(element)!r}, and not an SVG's: save it as plain SVG")
        if "transform" in attributes:
            raise Wrong(f"{self.name}: the svg element itself has a transform, which is not taken: put it on a group")
        self.attributes = attributes
        return self.within(Frame(), attributes)

    @staticmethod
    def within(around: Frame, attributes: Dict[str, str]) -> Frame:
        """What an element hands on, with what stands around it."""
        said = {**attributes, **style_of(attributes)}
        ids = (*around.ids, attributes["id"]) if "id" in attributes else around.ids
        transform, even_odd, why = around.transform, around.even_odd, around.why
        visible = {"visible": True, "hidden": False, "collapse": False}.get(said.get("visibility", ""), around.visible)
        try:
            unfit(said, style_of(attributes))
            transform = transform.of(matrix_of(attributes.get("transform", "")))
            even_odd = rule_of(said.get("fill-rule"), even_odd)
        except NotPlaced as error:
            why = why or str(error)
        return Frame(ids, transform, even_odd, visible, why)

    def shape(self, kind: str, attributes: Dict[str, str], frame: Frame) -> Found:
        """A path or a shape, and why it is not imported if it is not."""
        own = f" '{printable(attributes['id'])}'" if "id" in attributes else ""
        why = frame.why
        if kind != "path":
            why = why or f"a {kind} is no path; in Inkscape, Path, Object to Path makes one of it"
        elif "d" not in attributes:
            why = why or "it has no d, so no path data"
        elif not frame.visible:
            why = why or "it is hidden; show it, or take it out of the drawing"
        name, data = f"{kind}{own} (line {self.parser.CurrentLineNumber:,})", attributes.get("d", "").encode()
        return Found(name, frame.ids, data, frame.transform, frame.even_odd, why, attributes.get("id", ""))

    def ends(self, _: str) -> None:
        """The element that began last."""
        self.frames.pop()
        if self.sheet is not None:
            text, self.sheet = _COMMENT.sub(" ", "".join(self.sheet)), None
            self.refuse_sheet(_SHEET.search(text))
            self.sheets.append(text)

    def refuse_sheet(self, said: Optional["re.Match[str]"]) -> None:
        """A style sheet that says what is read from attributes alone."""
        if said:
            raise Wrong(f"{self.name}: its style sheet says {said[0].rstrip(': ')!r}, which is read from the elements' own "
                        "attributes alone; save it with presentation attributes in place of a style sheet")

    def says(self, text: str) -> None:
        """Text, of which only a style sheet's matters."""
        if self.sheet is not None:
            self.sheet.append(text)

    def instructs(self, target: str, _: str) -> None:
        """A style sheet that stands elsewhere may say anything."""
        if target == "xml-stylesheet":
            raise Wrong(f"{self.name}: its style sheet stands in another file; save it with presentation attributes")


def style_of(attributes: Dict[str, str]) -> Dict[str, str]:
    """What the attribute style says, which comes before the other attributes."""
    said = {}
    for declaration in _COMMENT.sub(" ", attributes.get("style", "")).split(";"):
        name, colon, value = declaration.partition(":")
        if colon:
            said[name.strip().lower()] = value.replace("!important", "").strip()
    return said


def rule_of(said: Optional[str], around: bool) -> bool:
    """Whether a fill-rule is evenodd."""
    if said is None or said == "inherit":
        return around
    if said not in RULES:
        raise NotPlaced(f"its fill-rule {said!r} is neither {' nor '.join(RULES)}")
    return RULES[said]


def unfit(said: Dict[str, str], style: Dict[str, str]) -> None:
    """Raises what keeps an element, and all within it, from being imported as it stands."""
    if said.get("display") == "none":
        raise NotPlaced("it is hidden, by display: none; show it, or take it out of the drawing")
    for name in CHANGING:
        if said.get(name, "none") != "none":
            raise NotPlaced(f"it has {name}, which changes what is drawn of it")
    for name in ONLY_IN_CSS:
        if name in style:
            raise NotPlaced(f"its attribute style has {name}, which is read from an attribute of that name alone")

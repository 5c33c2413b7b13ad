"""The command `hinth`."""
import argparse
import importlib
import sys
from typing import List, Optional

from . import __version__
from .errors import Wrong
from .files import target
from .saying import printable, say

DONE, REFUSED, BAD = 0, 1, 2

COMMANDS = {
    "import": "the paths of an SVG as a sheet",
    "flatten": "a sheet in, its lines and boxes out",
    "draw": "a picture of a list or a sheet, or of one laid over another",
    "compare": "a page that lays two folders of drawings over each other, worst first",
    "info": "what a sheet holds",
    "profile": "whether a sheet keeps to the profile for lay-up sheets",
    "check": "whether a list of lines is sound, of this shop or another",
    "convert": "a sheet of i16 points moved to f32 points, or back",
    "cut": "one path of a drawing or of a list as HP-GL, for the knife table",
    "mend": "a list whose paths each lack at most one line in, the mended list out",
}

HELP = f"""usage: hinth COMMAND ...

From the encoded paths of a sheet to the lines that a plotter inks and a knife table cuts.

{chr(10).join(f"  {name:9} {what}" for name, what in COMMANDS.items())}

Examples:

  hinth import samples/import/inkscape.svg -o a.sheet   take a drawing from a drawing program
  hinth flatten samples/socket.sheet -o socket.lines    flatten a sheet; the list is written if it is whole
  hinth draw --mm 0.5 --ink socket.lines -o socket.svg  look at it: what is inked, and every open point
  hinth draw old.lines new.lines -o both.svg            lay one list over another
  hinth compare old/ new/ -o report.html                all drawings of two folders, worst first
  hinth info samples/socket.sheet                       tags, subpaths, styles, transforms, size
  hinth profile new.sheet                               may it go to the knife table's lay-up
  hinth check socket.lines                              no bad number, every point a start as often as an end
  hinth convert --to f32 old.sheet -o new.sheet         an old sheet moved to f32 points, with the same lines
  hinth cut samples/brim.svg -o brim.plt                from a designer's drawing to the knife table, at its own size
  hinth cut socket.lines --path 0 -o brim.hpgl          a path of a list as HP-GL; `hinth draw` draws such files too
  hinth mend old.lines --within 2 -o new.lines          close gaps of at most 2 units, and say which

A sheet or a list is text, as docs/FLATLIST.md explains, or packed little-endian words; - is standard input or output.
The exit status is 0 if it is done, 1 if something was refused, 2 for bad input or wrong usage. `hinth COMMAND --help` says
more; `hinth --version` tells the version.
"""


class Parser(argparse.ArgumentParser):
    """Arguments, with one sentence for a wrong one, and help that a closed pipe does not break."""

    def __init__(self, command: str, text: str) -> None:
        super().__init__(prog=f"hinth {command}", usage=text.split("\n", 1)[0][len("usage: "):], add_help=False,
                         allow_abbrev=False)
        self.text = text
        self.add_argument("-h", "--help", action="store_true")

    def error(self, message: str) -> None:  # type: ignore[override]
        raise Wrong(f"{printable(message)}; `{self.prog} --help` shows how it is used")


def put(text: str) -> int:
    """Text on standard output."""
    with target("-") as out:
        out.write(text.encode())
    return DONE


def asks_for_help(arguments: List[str]) -> bool:
    """Whether an option asks for it, wherever it stands."""
    options = arguments[:arguments.index("--")] if "--" in arguments else arguments
    return "-h" in options or "--help" in options


def started(arguments: List[str]) -> int:
    """Does what the arguments ask."""
    command, *rest = arguments or [""]
    if command in COMMANDS:
        module = importlib.import_module(f".commands.{command}", __package__)
        parser = Parser(command, module.HELP)
        module.arguments(parser)
        return put(module.HELP) if asks_for_help(rest) else module.run(parser.parse_args(rest))
    if command in ("-h", "--help", "help"):
        return put(HELP)
    if command == "--version":
        return put(f"hinth {__version__}\n")
    what = f"there is no command {printable(command)!r}" if command else "a command is missing"
    raise Wrong(f"{what}; it is one of {', '.join(COMMANDS)}, and `hinth --help` shows how they are used")


def main(arguments: Optional[List[str]] = None) -> int:
    """Runs the command and returns the exit status. What goes wrong is one sentence."""
    try:
        return started(sys.argv[1:] if arguments is None else arguments)
    except Wrong as why:
        say(why)
    except MemoryError:
        say("there is not enough memory for this; part the drawing, or let the command have more")
    except KeyboardInterrupt:
        say("stopped")
        return 130
    return BAD

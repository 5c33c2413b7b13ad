"""Manners: help, versions, usage, progress, Ctrl-C, where the library is looked for, and an installation."""
import ast
import os
import pty
import re
import select
import shutil
import signal
import subprocess
import sys
import time
import unittest
import zipfile

from support import PACKAGE, ROOT, SOCKET_LINES, SOCKET_SHEET, TRIANGLE_SHEET, hinth, holds, in_folder, same
from test_flatten import many

COMMANDS = ("import", "flatten", "draw", "compare", "info")
LIBRARY = ROOT / "target/staticlib/libhinthevoun.so"
OURS = {"hinthevoun", "support", "browser", "oracle_sheets", "parts", "test_flatten"}


def on_a_terminal(code, seconds=30, keys=()):
    """What a program of Python says on a terminal, and how it ends."""
    process, terminal = pty.fork()
    if process == 0:
        os.chdir(PACKAGE)
        os.execv(sys.executable, [sys.executable, "-c", code])
    said, end, keys = b"", time.monotonic() + seconds, list(keys)
    while time.monotonic() < end:
        try:
            if select.select([terminal], [], [], 0.2)[0]:
                said += os.read(terminal, 10_000)
        except OSError:  # the other end is closed
            break
        if keys and keys[0][0] in said:
            os.write(terminal, keys.pop(0)[1])
    _, status = os.waitpid(process, 0)
    os.close(terminal)
    return said.decode(), status


class Usage(unittest.TestCase):
    """What is said of the command itself."""

    def test_help_teaches_with_examples(self):
        for arguments in (["--help"], ["-h"], *([command, "--help"] for command in COMMANDS)):
            result = hinth(*arguments)
            same((arguments, result.status, result.said), (arguments, 0, ""))
            text = result.out.decode()
            holds(text, "usage: hinth ")
            assert re.search(r"Examples?:\n\n  hinth ", text), arguments
            holds(text, "exit status")
            assert max(map(len, text.split("\n"))) <= 132, arguments

    def test_each_option_that_help_names_is_taken_and_the_other_way_round(self):
        sys.path.insert(0, str(PACKAGE))
        from hinthevoun import cli  # pylint: disable=import-outside-toplevel
        for command in COMMANDS:
            module = __import__(f"hinthevoun.commands.{command}", fromlist=["HELP"])
            parser = cli.Parser(command, module.HELP)
            module.arguments(parser)
            options = {option for action in parser._actions for option in action.option_strings}  # pylint: disable=W0212
            first = module.HELP.split("\n")[0]
            same(set(re.findall(r"(?<![\w-])--?[a-z]+", first)), options - {"-h", "--help"})

    def test_the_version(self):
        same(hinth("--version").out, b"hinth 0.1.0\n")

    def test_wrong_usage_is_one_sentence(self):
        for arguments, said in (([], "a command is missing"), (["flaten"], "there is no command 'flaten'"),
                                (["flatten"], "SHEET"), (["flatten", "a", "b"], "unrecognized arguments: b"),
                                (["flatten", "--rom", "1", "a"], "--rom"), (["flatten", "--room", "-1", "a"], "--room"),
                                (["flatten", "--room", "x", "a"], "invalid number of lines value: 'x'"),
                                (["flatten", "a", "-o"], "-o"), (["compare", "a", "b"], "-o"), (["info"], "SHEET")):
            result = hinth(*arguments)
            same((arguments, result.status, result.out, result.said.count("\n")), (arguments, 2, b"", 1))
            holds(result.said, said)
            holds(result.said, "--help` shows how")

    def test_packed_words_are_not_for_a_terminal(self):
        said, status = on_a_terminal("import sys; from hinthevoun.cli import main; "
                                     f"sys.exit(main(['flatten', '--binary', {str(TRIANGLE_SHEET)!r}]))")
        same((said, status >> 8), ("hinth: packed words are not for a terminal; give a file with -o, or a pipe\r\n", 2))


class Waiting(unittest.TestCase):
    """What is seen where something takes long."""

    slow = ("import sys, time, hinthevoun.commands.flatten as f; from hinthevoun.cli import main\n"
            "read = f.read_sheet\n"
            "def slowly(*a):\n    time.sleep({seconds})\n    return read(*a)\n"
            f"f.read_sheet = slowly\nsys.exit(main(['flatten', {str(TRIANGLE_SHEET)!r}, '-o', '/dev/null']))")

    def test_progress_is_told_on_a_terminal_after_a_second(self):
        said, status = on_a_terminal(self.slow.format(seconds=2.2))
        same(status, 0)
        holds(said, f"hinth: reading {TRIANGLE_SHEET}, 1 s")
        assert said.endswith("\r\x1b[K"), said

    def test_nothing_is_told_of_what_is_quick_or_elsewhere(self):
        said, status = on_a_terminal(self.slow.format(seconds=0))
        same((said, status), ("", 0))
        done = subprocess.run([sys.executable, "-c", self.slow.format(seconds=1.5)], cwd=PACKAGE, capture_output=True,
                              check=False)
        same((done.returncode, done.stderr), (0, b""))

    def test_no_progress_is_told_while_the_library_is_built(self):
        code = ("import subprocess, sys, time, hinthevoun.opening as l; from hinthevoun.cli import main\n"
                "real = l.find; l.builder, l.find = '/bin/sleep-and-say', lambda: real() if done else None\n"
                "done = []\n"
                "def slowly(*a, **k):\n    time.sleep(2.2); done.append(1)\n"
                "    return subprocess.CompletedProcess(a, 0)\n"
                "l.subprocess = type('S', (), dict(run=slowly, DEVNULL=-3))\n"
                f"sys.exit(main(['draw', {str(TRIANGLE_SHEET)!r}, '-o', '/dev/null']))")
        said, status = on_a_terminal(code)
        same(status, 0)
        rows = said.replace("\r\n", "\n").split("\n")
        same(rows[0], "hinth: the library is not there yet, so it is proved and built first, which takes some minutes")
        same(rows[1], f"hinth: {TRIANGLE_SHEET}: path 0: 3 lines, 0 open points")

    def test_ctrl_c_ends_it_without_a_traceback(self):
        said, status = on_a_terminal(self.slow.format(seconds=20), keys=[(b"reading", b"\x03")])
        assert "Traceback" not in said, said
        holds(said, "hinth: stopped")
        same(status >> 8, 130)

    @in_folder
    def test_ctrl_c_ends_the_librarys_call(self, folder):
        """A sheet that takes the library some seconds, and nothing stays behind."""
        (folder / "a.sheet").write_text(many(1))
        code = ("import sys, time, ctypes, hinthevoun.flattening as f; from hinthevoun.cli import main\n"
                "sleep = ctypes.CDLL(None).sleep\n"
                "def slowly(*a):\n    print('called', flush=True)\n    return sleep(20)\n"
                f"f.flatten = slowly\n"
                f"sys.exit(main(['flatten', {str(folder / 'a.sheet')!r}, '-o', {str(folder / 'out')!r}]))")
        began = time.monotonic()
        with subprocess.Popen([sys.executable, "-c", code], cwd=PACKAGE, stdout=subprocess.PIPE,
                              stderr=subprocess.PIPE) as process:
            same(process.stdout.readline(), b"called\n")
            time.sleep(0.2)
            process.send_signal(signal.SIGINT)
            same((process.wait(10), process.stderr.read()), (-signal.SIGINT, b""))
        assert time.monotonic() - began < 10
        same(os.listdir(folder), ["a.sheet"])

    def test_ctrl_c_stays_ignored_where_it_was(self):
        code = ("import signal; signal.signal(signal.SIGINT, signal.SIG_IGN)\n"
                "from hinthevoun.interrupting import stops_at_once\n"
                "with stops_at_once():\n    print(signal.getsignal(signal.SIGINT) == signal.SIG_IGN)")
        same(subprocess.run([sys.executable, "-c", code], cwd=PACKAGE, stdout=subprocess.PIPE).stdout, b"True\n")


class Library(unittest.TestCase):
    """Where the library is looked for."""

    @in_folder
    def test_by_the_variable_beside_the_package_and_in_target(self, folder):
        copy = folder / "python" / "hinthevoun"
        shutil.copytree(PACKAGE / "hinthevoun", copy, ignore=shutil.ignore_patterns("__pycache__"))
        def flatten(**variables):
            return hinth("flatten", SOCKET_SHEET, env={"PYTHONPATH": str(copy.parent), **variables})
        missing = flatten()
        same((missing.status, missing.out, missing.said.count("\n")), (2, b"", 1))
        holds(missing.said, f"hinth: there is no library at {copy}/libhinthevoun.so nor "
                            f"{folder}/target/staticlib/libhinthevoun.so: run tools/library in a checkout")
        same(flatten(HINTHEVOUN_LIBRARY=str(LIBRARY)).out, SOCKET_LINES.read_bytes())
        (folder / "target/staticlib").mkdir(parents=True)
        shutil.copy(LIBRARY, folder / "target/staticlib")
        same(flatten().out, SOCKET_LINES.read_bytes())
        (copy / LIBRARY.name).write_bytes(b"beside")
        broken = flatten()
        same((broken.status, broken.said.count("\n")), (2, 1))
        holds(broken.said, f"{copy}/libhinthevoun.so is not this package's library for this machine")
        same(flatten(HINTHEVOUN_LIBRARY="/no/such.so").status, 2)

    def test_a_library_of_another_kind_is_told(self):
        other = next(path for path in (shutil.which("true"), sys.executable) if path)
        result = hinth("flatten", SOCKET_SHEET, env={"HINTHEVOUN_LIBRARY": other})
        same((result.status, result.said.count("\n")), (2, 1))


class Checkout(unittest.TestCase):
    """tools/hinth, in a folder whose tools/library writes down its calls."""

    def checkout(self, folder, ends=0):
        (folder / "tools").mkdir()
        shutil.copy(ROOT / "tools/hinth", folder / "tools")
        (folder / "python").symlink_to(PACKAGE)
        script = folder / "tools/library"
        script.write_text(f"#!/bin/sh\necho built >>calls\necho proving >&2\nexit {ends}\n")
        script.chmod(0o755)

        def run(*arguments, **variables):
            command = [sys.executable, str(folder / "tools/hinth"), *map(str, arguments)]
            return subprocess.run(command, cwd=folder, capture_output=True, check=False, text=True,
                                  env={**os.environ, **variables})
        return run

    def test_it_does_the_same_from_the_checkout(self):
        done = subprocess.run([ROOT / "tools/hinth", "flatten", SOCKET_SHEET], capture_output=True, check=False)
        same((done.returncode, done.stdout), (0, SOCKET_LINES.read_bytes()))

    @in_folder
    def test_what_is_missing_is_built_first_and_said(self, folder):
        """The package's own target/ has the library, so here it is looked for in a copy without."""
        run = self.checkout(folder)
        (folder / "python").unlink()
        shutil.copytree(PACKAGE / "hinthevoun", folder / "python/hinthevoun")
        done = run("flatten", TRIANGLE_SHEET)
        same((done.returncode, done.stdout), (2, ""))
        rows = done.stderr.split("\n")
        holds(rows[0], "hinth: the library is not there yet, so it is proved and built first, which takes some minutes")
        same(rows[1], "proving")
        holds(rows[2], "hinth: there is no library at ")
        same((folder / "calls").read_text(), "built\n")

    @in_folder
    def test_a_library_that_cannot_be_built_is_told(self, folder):
        done = self.checkout(folder, ends=3)("flatten", TRIANGLE_SHEET)
        same(done.returncode, 2)
        holds(done.stderr, "library could not be built: ")

    @in_folder
    def test_what_needs_no_library_builds_none(self, folder):
        run = self.checkout(folder)
        for arguments in (["--help"], ["draw", SOCKET_LINES, "-o", "a.svg"]):
            same(run(*arguments).returncode, 0)
        same(run("flatten", TRIANGLE_SHEET, HINTHEVOUN_LIBRARY=str(LIBRARY)).returncode, 0)
        assert not (folder / "calls").exists()


class Installed(unittest.TestCase):
    """pip, without a network."""

    @in_folder
    def test_pip_puts_hinth_on_the_path(self, folder):
        made = subprocess.run([sys.executable, "-m", "venv", folder / "venv"], capture_output=True, check=False)
        pip = folder / "venv/bin/pip"
        if made.returncode or not pip.exists():
            self.skipTest("there is no venv with pip, so the installation was not tried")
        nowhere = {**os.environ, "PIP_INDEX_URL": "http://127.0.0.1:9/", "PIP_RETRIES": "0", "PIP_NO_CACHE_DIR": "1"}
        done = subprocess.run([pip, "install", "./python"], cwd=ROOT, env=nowhere, capture_output=True, check=False)
        same((done.returncode, done.stdout if done.returncode else b""), (0, b""))
        done = subprocess.run(["hinth", "flatten", SOCKET_SHEET], cwd=folder, capture_output=True, check=False,
                              env={"PATH": f"{folder}/venv/bin:/usr/bin:/bin"})
        same((done.returncode, done.stdout, done.stderr), (0, SOCKET_LINES.read_bytes(), b""))
        holds(os.listdir(next((folder / "venv/lib").glob("python*/site-packages/hinthevoun"))), LIBRARY.name)

    @in_folder
    def test_without_a_library_the_package_is_for_any_machine(self, folder):
        """Built away from the checkout, as an old pip does."""
        shutil.copytree(PACKAGE, folder / "python", ignore=shutil.ignore_patterns("tests", "__pycache__"))
        code = "import backend; print(backend.build_wheel('.'), backend.build_sdist('.'))"
        done = subprocess.run([sys.executable, "-c", code], cwd=folder / "python", capture_output=True, check=False)
        same((done.returncode, done.stdout), (0, b"hinthevoun-0.1.0-py3-none-any.whl hinthevoun-0.1.0.tar.gz\n"))
        with zipfile.ZipFile(folder / "python/hinthevoun-0.1.0-py3-none-any.whl") as wheel:
            names = wheel.namelist()
            rows = [row.split(",")[0] for row in wheel.read("hinthevoun-0.1.0.dist-info/RECORD").decode().split()]
        same(sorted(rows), sorted(names))
        sources = {str(place.relative_to(PACKAGE)) for place in (PACKAGE / "hinthevoun").rglob("*.py")}
        assert sources < set(names), sources - set(names)


STANDARD = getattr(sys, "stdlib_module_names", ())


class Source(unittest.TestCase):
    """The package's own text."""

    @unittest.skipUnless(STANDARD, "this Python does not tell its own modules")
    def test_python_3_9_reads_it_and_only_the_standard_library_is_used(self):
        for place in [*PACKAGE.rglob("*.py"), ROOT / "tools/hinth"]:
            tree = ast.parse(place.read_text(), feature_version=(3, 9))
            for node in ast.walk(tree):
                names = [node.module] if isinstance(node, ast.ImportFrom) and not node.level else \
                    [alias.name for alias in node.names] if isinstance(node, ast.Import) else []
                for name in names:
                    first = name.split(".")[0]
                    assert first in OURS or first in STANDARD, (place, name)

    def test_functions_are_short(self):
        for place in (PACKAGE / "hinthevoun").rglob("*.py"):
            for node in ast.walk(ast.parse(place.read_text())):
                if isinstance(node, ast.FunctionDef):
                    lines = node.end_lineno - node.lineno + 1
                    assert lines < 40, f"{place}: {node.name} has {lines} lines"


if __name__ == "__main__":
    unittest.main()

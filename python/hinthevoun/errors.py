"""What is said in place of an answer."""


class Wrong(Exception):
    """Bad input, or a file that cannot be read or written: one sentence that names the file, the place and the cure."""


class NoLibrary(Wrong):
    """The proved library cannot be opened: where it was looked for, and what to run."""

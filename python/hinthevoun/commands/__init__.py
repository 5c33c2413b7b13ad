"""The commands, a module each: `parser` says how it is used, `run` does it and returns the exit status."""

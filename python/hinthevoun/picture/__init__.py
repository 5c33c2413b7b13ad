"""Pictures of lists: `counting`, `geometry` and `ink` work out, `telling` words, `drawing` and `paper` draw. Nothing here
reads or writes a file."""

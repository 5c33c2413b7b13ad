"""`python3 -m hinthevoun` is `hinth`."""
import sys

from .cli import main

sys.exit(main())

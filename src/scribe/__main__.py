"""Runs scribe as `python3 -m scribe`."""

from scribe import left_to_system

left_to_system()

import gc

# few things here refer to each other in a circle, so that these are looked for less often
gc.set_threshold(50_000)

from scribe.cli import main
from scribe.cli.endings import leave

if __name__ == "__main__":
    leave(main())

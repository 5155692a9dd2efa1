"""Puts tools/rules (the model and its assembler) on the path; imported before them."""

import sys
from pathlib import Path

TOOLS = Path(__file__).resolve().parent.parent
ROOT = TOOLS.parent
for folder in ("rules", "cel"):
    if str(TOOLS / folder) not in sys.path:
        sys.path.insert(0, str(TOOLS / folder))

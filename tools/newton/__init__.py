"""What the tools share. Graphs, streams, literals and directories are read by the modules of `reference/`."""

import sys
from pathlib import Path

REFERENCE = Path(__file__).resolve().parents[2] / "reference"
if str(REFERENCE) not in sys.path:
    sys.path.append(str(REFERENCE))

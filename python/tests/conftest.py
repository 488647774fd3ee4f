"""The package is that of this checkout, unless the environment's TBSON_INSTALLED says to test the one that is installed."""

import os
import sys
from pathlib import Path

if "TBSON_INSTALLED" not in os.environ:
    checkout = str(Path(__file__).resolve().parent.parent)
    sys.path.insert(0, checkout)
    os.environ["PYTHONPATH"] = checkout

"""Lets a script of this folder, which is run directly, import the modules of scripts/shared."""

import pathlib
import sys

sys.path.insert(0, str(pathlib.Path(__file__).resolve().parent.parent))

#!/usr/bin/env python3
# SPDX-License-Identifier: MIT OR Apache-2.0
"""Writes the wheels of the package to a folder and prints their file names. python/_backend says what they hold.

  wheel.py FOLDER
"""
import sys
from pathlib import Path

sys.dont_write_bytecode = True
sys.path.insert(0, str(Path(__file__).resolve().parents[1] / "python/_backend"))
import backend  # noqa: E402

if len(sys.argv) != 2:
    sys.exit("usage: wheel.py FOLDER")
try:
    print(*(backend.build_wheel_for(machine, sys.argv[1]) for machine in backend.LIBRARIES), sep="\n")
except OSError as error:
    sys.exit(f"wheel.py: {error}")

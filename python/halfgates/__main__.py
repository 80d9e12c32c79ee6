# SPDX-License-Identifier: MIT OR Apache-2.0
"""Runs a command of the program: `python3 -m halfgates plain CIRCUIT VALUE..`.

A wheel has the library alone. The program is that of the repository, or else an installed one.
"""

import os
import shutil
import sys
from pathlib import Path

_LAUNCHER = Path(__file__).resolve().parents[2] / "halfgates"
_MISSING = "halfgates: the program isn't part of this package: ./install of the repository installs it"


def main() -> None:
    program = str(_LAUNCHER) if _LAUNCHER.is_file() else shutil.which("halfgates")
    if program is None:
        print(_MISSING, file=sys.stderr)
        sys.exit(127)
    os.execv(program, [program, *sys.argv[1:]])


if __name__ == "__main__":
    main()

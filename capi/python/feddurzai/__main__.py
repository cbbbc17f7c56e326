"""`python3 -m feddurzai`: the inspector of ELF files."""

import sys

from .inspector.command import main

if __name__ == "__main__":
    sys.exit(main())

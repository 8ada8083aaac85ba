"""``python3 -m purvelj``."""

import sys

try:
    from purvelj.cli import main

    status = main()
except KeyboardInterrupt:
    # Before the command began, or as it ended.
    print("purvelj: interrupted", file=sys.stderr)
    status = 130
sys.exit(status)

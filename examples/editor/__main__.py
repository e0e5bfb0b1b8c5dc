"""A small editor on tktext, in a terminal: python3 examples/editor FILE"""

import os
import sys

try:
    from editor import Editor
except ImportError as error:
    sys.exit(f"editor: cannot import tktext: {error}: run `pip install .` (docs/guide/editor.md)")

if len(sys.argv) != 2 or not os.isatty(0) or not os.isatty(1):
    sys.exit(__doc__)
try:
    Editor(sys.argv[1]).run()
except Exception as error:
    sys.exit(f"editor: cannot edit '{sys.argv[1]}': {getattr(error, 'strerror', None) or error}")

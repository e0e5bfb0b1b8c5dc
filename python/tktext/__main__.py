"""What `python3 -m tktext` runs."""

import sys

from ._tool import main

sys.exit(main())

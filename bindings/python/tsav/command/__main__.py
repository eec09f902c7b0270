"""`python3 -m tsav.command`, which is the command `tsav` where it isn't installed."""

import sys

from tsav.command.main import main

sys.exit(main())

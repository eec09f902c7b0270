"""The command `tsav` of a wheel. Where the library or the package can't be loaded, that is a sentence and status 2, as bin/tsav has it of what is installed
otherwise: this stands beside the package, since what stands in it isn't read before the library is loaded."""

import sys


def main() -> int:
    try:
        from tsav.command.main import main as run
    except ImportError as error:
        print(f"tsav: {error}", file=sys.stderr)
        return 2
    return run()

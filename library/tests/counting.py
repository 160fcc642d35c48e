"""The checks of a test, counted. Finds the module of ROOT, the test's first word."""

import sys
from pathlib import Path

root = Path(sys.argv[1])
sys.path.insert(0, str(root / 'library'))

passed = failed = 0


def same(what: str, found: object, wanted: object) -> None:
    """Counts a check as passed where what was found is what was wanted."""
    global passed, failed
    if found == wanted:
        passed += 1
    else:
        failed += 1
        print(f'{what}\n  wanted: {wanted!r:.300}\n  found:  {found!r:.300}')


def end() -> None:
    """Prints 'N passed, M failed', and ends the test: with 1 where one failed."""
    print(f'{passed} passed, {failed} failed')
    sys.exit(failed > 0)

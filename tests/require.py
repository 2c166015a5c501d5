"""How a test says that something does not hold."""
import sys


def require(fact, *what):
    """Ends with a failure, naming what does not hold, unless the fact holds."""
    if not fact:
        sys.exit(" ".join(["does not hold:", *map(str, what)]))

"""Random days that pass every check."""
from calculator import PRICE_LIMIT
from days import contracts
from records import Correction, Day, Mark, Position
from settlement import MAX_LOTS


class Random:
    """A small generator of numbers (xorshift), the same on every machine."""

    def __init__(self, seed):
        self.state = seed

    def below(self, bound):
        x = self.state
        x ^= (x << 13) & 0xFFFF_FFFF_FFFF_FFFF
        x ^= x >> 7
        x ^= (x << 17) & 0xFFFF_FFFF_FFFF_FFFF
        self.state = x
        return x % bound

    def price(self, tick):
        return tick * self.below(PRICE_LIMIT // tick + 1)


def random_mark(random, contract):
    tick = contract.product.tick
    return Mark(contract.code, contract.month, contract.year, random.price(tick), random.price(tick))


def random_corrections(random, marks, count):
    """Corrections with numbers in no order; about a quarter are copies of earlier ones."""
    made = {}
    corrections = []
    while len(corrections) < count:
        number, index = random.below(2 * count), random.below(len(marks))
        made.setdefault(number, Correction(number, index, random.price(marks[index].product.tick)))
        corrections.append(made[number])
    return corrections


def random_positions(random, marks, count):
    """Positions of which no two agree in account and mark. Many agree in one of them: three accounts of four are small numbers."""
    positions = {}
    while len(positions) < count:
        account, index = random.below(count if random.below(4) else 2**32), random.below(len(marks))
        lots = random.below(MAX_LOTS) + 1
        positions.setdefault((account, index), Position(account, index, lots if random.below(2) else -lots))
    return list(positions.values())


def random_day(seed, marks, corrections, positions):
    """A day of so many marks, corrections and positions."""
    random = Random(seed)
    listed = [random_mark(random, contract) for contract in contracts(marks)]
    corrected = random_corrections(random, listed, corrections)
    return Day(listed, corrected, random_positions(random, listed, positions))

"""The digest that the programs sweep and cases print: one number for a long list of numbers."""

PRIME = 2**56 - 5  # the largest prime below 2^56


def digest(numbers):
    """Another number in any one place makes another digest, as long as all are below the prime."""
    h = 0
    for number in numbers:
        h = (h * 131 + number) % PRIME
    return h

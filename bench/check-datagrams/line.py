"""A line between tools and a slave that loses datagrams, doubles them, holds them up, cuts them, and changes bytes of them."""

# What becomes of a datagram, and how often.
FATES = {"came": 60, "were lost": 8, "were doubled": 8, "were held up": 10, "were cut": 6, "were changed": 8}


def changed(random, datagram):
    """A datagram of which some bits, bytes or pieces aren't as they were."""
    found = bytearray(datagram)
    for _ in range(random.choice((1, 1, 2, 5))):
        at = random.randrange(len(found) + 1)
        how = random.randrange(5)
        if how == 0:
            found[at:at] = random.randbytes(random.choice((1, 1, 4, 30)))
        elif how == 1:
            del found[at : at + random.choice((1, 1, 4, 30))]
        elif found[at : at + 1]:
            found[at] = found[at] ^ 1 << random.randrange(8) if how < 4 else random.choice((0, 0xFF, random.randrange(256)))
    return bytes(found)


class Line:
    """Takes datagrams in, each with whose it is, and gives those that leave at its other end."""

    def __init__(self, random):
        self.random = random
        self.held = []  # how many datagrams are to leave before it, whose it is, and the datagram
        self.fates = dict.fromkeys(FATES, 0)

    def passed_on(self, who, datagram):
        """What leaves when this one comes in."""
        random = self.random
        fate = random.choices(list(FATES), FATES.values())[0]
        self.fates[fate] += 1
        leaves = []
        if fate == "were held up":
            self.held.append([random.choice((1, 1, 1, 2, 3, 5, 40, 200)), who, datagram])
        elif fate == "were cut":
            leaves = [(who, datagram[: random.randrange(len(datagram) + 1)])]
        elif fate == "were changed":
            leaves = [(who, changed(random, datagram))]
        elif fate != "were lost":
            leaves = [(who, datagram)] * (2 if fate == "were doubled" else 1)
        for it in self.held:
            it[0] -= len(leaves)
        leaves += [(who, datagram) for left, who, datagram in self.held if left <= 0]
        self.held = [it for it in self.held if it[0] > 0]
        return leaves

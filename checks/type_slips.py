"""Where a circuit of type_maker.py is made wrong. A slip may leave it right, too."""
from collections import Counter


class Slips:
    """The points at which a making slips, each with the code that it is likely to come to, its way
    and its number. It counts the points of each way that the making comes to."""

    def __init__(self, chosen=()):
        self.chosen, self.points = set(chosen), Counter()

    def here(self, code, way):
        """Whether this point of the way, which is the next one, is to be wrong."""
        self.points[code, way] += 1
        return (code, way, self.points[code, way]) in self.chosen

    def some(self, chance, count):
        """Points at which a making like this one may slip. Each code is as likely as the others,
        and of a code each way."""
        chosen = []
        for _ in range(count if self.points else 0):
            code = chance.choice(sorted({code for code, _ in self.points}))
            way = chance.choice(sorted(way for other, way in self.points if other == code))
            chosen.append((code, way, chance.randint(1, self.points[code, way])))
        return Slips(chosen)

"""Random cells and lists of cells for the tests of the library and of the databases, over the plain model."""

import random

from model import unions as model

FACE = model.identifier(0, 0)


def signed(number):
    """An identifier as a signed number, as databases have it."""
    return number - 2**64 if number >= 2**63 else number


def unsigned(number):
    return number % 2**64


class Random(random.Random):
    def cell(self, low=0, high=30):
        level = self.randint(low, high)
        return model.identifier(level, self.randrange(6 * 4**level))

    def near(self, cell):
        """A cell that is likely to be related to another one: around it, in it, or beside it."""
        level, place = model.cell(cell)
        other = self.randint(max(0, level - 2), min(30, level + 2))
        place = place * 4 ** (other - level) if other > level else place // 4 ** (level - other)
        return model.identifier(other, min(max(place + self.randint(-2, 5), 0), 6 * 4**other - 1))

    def cells(self, most=12, near=(), low=0):
        """Up to n cells that are related to each other, and to one of `near` if there are any; or none."""
        cells = [self.near(self.choice(near)) if near else self.cell(low, 29)]
        for _ in range(self.randrange(most)):
            cells.append(self.near(self.choice(cells)))
        return cells if self.random() < 0.95 else []

    def level_from(self, cells):
        """The level of the largest of the cells, or 27 if that is less, and up to three more."""
        return min([model.cell(cell)[0] for cell in cells] + [27]) + self.randrange(4)

    def number(self):
        """Any number: sometimes a cell, mostly not."""
        damaged = self.cell() ^ 1 << self.randrange(64)
        return self.choice([self.cell(), self.getrandbits(64), self.getrandbits(3), damaged])

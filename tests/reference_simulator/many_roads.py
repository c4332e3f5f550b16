"""Simulate many roads at once with arrays of numpy: a second simulator, for runs that would take the plain one hours.

One table (roads by cells) has the speed of each car, and another one its number, which determines its random words. The program
was written from the section on steps in docs/FORMAT.md. It supports roads with an inlet at cell 0, a ramp, and one deleted cell.
"""
import numpy

EMPTY = -1
ROUNDS = 8
QUARTERS = ((0, 4, 8, 12), (1, 5, 9, 13), (2, 6, 10, 14), (3, 7, 11, 15),
            (0, 5, 10, 15), (1, 6, 11, 12), (2, 7, 8, 13), (3, 4, 9, 14))
INLET = 2 ** 63


def words(seeds, streams, block):
    """Return the upper halves of the 16 words of a block, for arrays of seeds and streams."""
    count = len(seeds)
    state = numpy.zeros((16, count), dtype=numpy.uint32)
    state[:4] = numpy.frombuffer(b"expand 32-byte k", dtype="<u4")[:, None]
    state[4:6] = seeds.astype(">u8").view("<u4").reshape(count, 2).T
    state[12], state[13] = block & 0xFFFFFFFF, block >> 32
    state[14:] = streams.astype("<u8").view("<u4").reshape(count, 2).T
    found = state.copy()
    for _ in range(ROUNDS // 2):
        for a, b, c, d in QUARTERS:
            for total, turned, other, bits in ((a, d, b, 16), (c, b, d, 12), (a, d, b, 8), (c, b, d, 7)):
                found[total] += found[other]
                mixed = found[turned] ^ found[total]
                found[turned] = (mixed << numpy.uint32(bits)) | (mixed >> numpy.uint32(32 - bits))
    return ((found + state) >> numpy.uint32(16)).T


class Roads:
    """Roads of the same length. Each has a seed and an inflow, and for each cell a limit, a slowing chance, and a slowing chance of
    standing cars (`starts`). `ramp` is a cell and the inflows there. The last cell is the deleted zone."""

    def __init__(self, seeds, inflows, limits, slowings, starts=None, ramp=None):
        self.seeds = numpy.array(seeds, dtype=numpy.uint64)
        self.inlets = [(cell, numpy.array(chances)) for cell, chances in ((0, inflows), *([ramp] if ramp else []))]
        self.limits, self.slowings = numpy.array(limits), numpy.array(slowings)
        self.starts = self.slowings if starts is None else numpy.array(starts)
        self.count, self.length = self.limits.shape
        self.speed = numpy.full((self.count, self.length), EMPTY)
        self.number = numpy.zeros((self.count, self.length), dtype=numpy.int64)
        self.blocked = set()
        self.step = 0
        self.words = numpy.zeros((self.count, self.length, 16), dtype=numpy.uint32)

    def simulate_step(self):
        """Simulate one step. Return the cells and new speeds of the cars that moved, as tables (speed 0 without a car)."""
        place = self.step % 16
        if place == 0:
            self.inlet_words = [words(self.seeds, numpy.full(self.count, INLET + index, dtype=numpy.uint64), self.step // 16)
                                for index in range(len(self.inlets))]
            self.draw_all()
        self.enter(place)
        taken = self.speed >= 0
        taken[:, list(self.blocked)] = True
        cells = numpy.arange(self.length)
        ahead = numpy.where(taken, cells, 10 ** 6)
        ahead = numpy.minimum.accumulate(ahead[:, ::-1], axis=1)[:, ::-1]
        gap = numpy.full_like(ahead, 10 ** 6)
        gap[:, :-1] = ahead[:, 1:] - cells[:-1] - 1
        road, cell = numpy.nonzero(self.speed >= 0)
        old = self.speed[road, cell]
        chance = numpy.where(old == 0, self.starts[road, cell], self.slowings[road, cell])
        new = numpy.minimum(numpy.minimum(old + 1, self.limits[road, cell]), gap[road, cell])
        new -= (new > 0) & (self.words[road, cell, place] < chance)
        moved = numpy.zeros_like(self.speed)
        moved[road, cell] = new
        number, drawn, target = self.number[road, cell], self.words[road, cell], cell + new
        stays = target < self.length - 1
        self.speed[:] = EMPTY
        road, target = road[stays], target[stays]
        self.speed[road, target], self.number[road, target], self.words[road, target] = new[stays], number[stays], drawn[stays]
        self.step += 1
        return moved

    def draw_all(self):
        """Draw the words of this block of 16 steps for all cars. Call it again if chances change within the block."""
        self.draw(*numpy.nonzero(self.speed >= 0))

    def draw(self, road, cell):
        """Draw the words of this block for the cars at some places."""
        if not self.slowings.any() and not self.starts.any():
            return  # no car is slowed
        self.words[road, cell] = words(self.seeds[road], self.number[road, cell].astype(numpy.uint64), self.step // 16)

    def enter(self, place):
        comes = [(self.speed[:, cell] < 0) & (drawn[:, place] < inflows) & (cell not in self.blocked)
                 for (cell, inflows), drawn in zip(self.inlets, self.inlet_words)]
        for index, ((cell, _), come) in enumerate(zip(self.inlets, comes)):
            road = numpy.nonzero(come)[0]
            self.speed[road, cell], self.number[road, cell] = 0, 16 * self.step + index
            self.draw(road, numpy.full(len(road), cell))

    def run(self, to, watch=(), areas=None):
        """Run to a step. Return for each (site, first, last) of `watch` the cars that pass the site in steps first to last - 1, and the sum
        of their speeds; and the cars on the cells of the area, and their speeds, summed over the states of some steps. `areas` is
        (first, last, table of the roads' cells)."""
        passed = [(numpy.zeros(self.count, int), numpy.zeros(self.count, int)) for _ in watch]
        there = numpy.zeros((2, self.count), int)
        cells = numpy.arange(self.length)
        while self.step < to:
            step = self.step
            if areas is not None and areas[0] <= step < areas[1]:
                cars = (self.speed >= 0) & areas[2]
                there[0] += cars.sum(axis=1)
                there[1] += numpy.where(cars, self.speed, 0).sum(axis=1)
            moved = self.simulate_step()
            for (site, first, last), (cars, speeds) in zip(watch, passed):
                if first <= step < last:
                    past = (cells < site) & (cells + moved >= site)
                    cars += past.sum(axis=1)
                    speeds += numpy.where(past, moved, 0).sum(axis=1)
        return passed, there

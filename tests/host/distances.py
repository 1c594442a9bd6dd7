"""The farthest HLG codes from their exact values, among the engine's own answers.

Every code is measured in double precision. The farthest ones and a sample of the
others are measured again in long decimals, which also shows how far the doubles err.
"""

from heapq import heappush, heappushpop

from tests.reference.survey import KINDS, LINEAR

KEPT = 30                                # farthest pixels measured again in each zone of each kind: the codes of a format, or linear values


class Distances:
    """Collects answers; `report` gives the worst of each zone of each kind."""

    def __init__(self, sample_every):
        self.count = 0
        self.sample_every = sample_every
        self.sample = []
        self.kept = {kind.name: {True: [], False: []} for kind in KINDS}       # by the inner zone, and what lies outside it

    def add(self, L, pixel, codes, kind):
        """One accepted pixel and the codes that the engine gave."""
        self.count += 1
        distance, zones = kind.quick(L, pixel, codes), self.kept[kind.name]
        found = distance, L, pixel, codes
        if self.count % self.sample_every == 0:
            self.sample.append((kind, found))
        if any(len(kept) < KEPT or distance > kept[0][0] for kept in zones.values()):
            kept = zones[kind.inner(L, pixel)]
            if len(kept) < KEPT:
                heappush(kept, found)
            else:
                heappushpop(kept, found)

    def worst(self, kind, inner):
        """The largest distance of a zone in long decimals, with its peak, pixel and codes."""
        return max((max(kind.exact(*found)), *found) for _, *found in self.kept[kind.name][inner])

    def error_of_doubles(self):
        """The largest difference between both measures, over the sample and what was kept."""
        kept = [(kind, found) for kind in KINDS for found in (*self.kept[kind.name][True], *self.kept[kind.name][False])]
        return max(abs(float(max(kind.exact(*found))) - distance) for kind, (distance, *found) in (*self.sample, *kept))

    def report(self):
        """Prints the worst of each zone; False if one is farther than is promised."""
        error = self.error_of_doubles()
        print(f"distances: {self.count:,} pixels in doubles, {len(self.sample):,} of them and the farthest "
              f"in 80 digits; doubles err by {error:.1e}")
        sound = error < 1e-6
        for kind, inner in ((kind, inner) for kind in KINDS for inner in (True, False) if self.kept[kind.name][inner]):
            distance, L, pixel, codes = self.worst(kind, inner)
            zone = "unbent or a low peak" if inner else "others"
            given = tuple(f"{bits:08x}" for bits in pixel) if kind is LINEAR else pixel
            print(f"distances: {kind.name}, {zone}, held to {kind.bounds[inner]}: worst {distance:.9f} at peak {L}, pixel {given}, codes {codes}")
            sound &= distance <= kind.bounds[inner]
        return sound

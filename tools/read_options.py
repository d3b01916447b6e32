"""What a load or a comparison chooses among, without a list of all of it: a range of positions of a cell, some of them left out."""
import bisect


class ReadOptions:
    """The options of a read of a cell: success, where a comparison may have it, then the positions from the newest down to the floor.

    `left_out` has positions in rising order; those of them in the range are no options. An option is a pair of what it is, `read`,
    `succeeds` or `fails`, and a position.
    """

    __slots__ = ("what", "cell", "newest", "succeeds", "left_out", "low", "high", "count")

    def __init__(self, what, cell, positions, succeeds=False, left_out=()):
        self.what, self.cell, self.newest, self.succeeds, self.left_out = what, cell, positions[0], succeeds, left_out
        self.low, self.high = bisect.bisect_left(left_out, positions[-1]), bisect.bisect_right(left_out, positions[0])
        self.count = succeeds + len(positions) - (self.high - self.low)

    def __len__(self):
        return self.count

    def before(self, position):
        """How many options there are before a position."""
        return self.succeeds + self.newest - position - (self.high - bisect.bisect_right(self.left_out, position, self.low, self.high))

    def index(self, event):
        """Which option an event took."""
        return 0 if event.kind == "update" else self.before(event.position)

    def __getitem__(self, index):
        """An option by its number."""
        if self.succeeds and index == 0:
            return "succeeds", self.newest
        if self.low == self.high:
            return self.what, self.newest + self.succeeds - index
        low, high = 0, self.newest
        # The lowest position that has at most `index` options before it is the option itself.
        while low < high:
            middle = (low + high) // 2
            if self.before(middle) <= index:
                high = middle
            else:
                low = middle + 1
        return self.what, low

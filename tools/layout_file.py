"""Reads the layouts that rxc writes, for the scripts beside this one; it shares nothing with rxc.

It takes CIF with a command a line, boxes in definitions that are scaled by 100, and calls with translations alone. All lengths that it gives are in
lambda.
"""
from array import array

UNITS = 200
LAYERS = ("ND", "NP", "NM", "NC", "NI")


class Layout:
    """The boxes of each kind by layer, four edges for each box, west, south, east, north; the calls, and the labels."""

    def __init__(self, path):
        self.kinds, self.calls, self.labels = {}, [], []
        boxes = None
        with open(path) as lines:
            for line in lines:
                words = line.rstrip("\n ;").split()
                command = words[0] if words else ""
                if command == "B":
                    length, width, x, y = map(int, words[1:])
                    boxes.extend((edge(2 * x - length), edge(2 * y - width), edge(2 * x + length), edge(2 * y + width)))
                elif command == "L":
                    boxes = kind.setdefault(words[1], array("i"))
                elif command == "DS":
                    if words[2:] != ["100", "1"]:
                        raise ValueError("a definition that is not scaled by 100")
                    kind = self.kinds[words[1]] = {}
                elif command == "C":
                    if words[2] != "T" or len(words) != 5:
                        raise ValueError("a call that is no translation")
                    self.calls.append((words[1], whole(int(words[3]), UNITS), whole(int(words[4]), UNITS)))
                elif command == "94":
                    self.labels.append((words[1], words[4], whole(int(words[2]), UNITS), whole(int(words[3]), UNITS)))
                elif command not in ("DF", "E"):
                    raise ValueError(f"a command that rxc does not write: {line}")

    def box(self):
        """The edges of the least box round all that is drawn."""
        edges = {}
        for name, layers in self.kinds.items():
            drawn = [it for it in layers.values() if it]
            edges[name] = [few(few(it[i::4]) for it in drawn) for i, few in enumerate((min, min, max, max))] if drawn else None
        called = [(edges[name], dx, dy) for name, dx, dy in self.calls if edges[name]]
        return [few(box[i] + (dy if i % 2 else dx) for box, dx, dy in called) for i, few in enumerate((min, min, max, max))]


def edge(quarters):
    return whole(quarters, 4)


def whole(number, by):
    found, rest = divmod(number, by)
    if rest:
        raise ValueError("a length that is no whole number of lambda")
    return found

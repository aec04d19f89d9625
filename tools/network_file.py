"""Reads network texts and traces, for the scripts that hand them to other simulators; it shares nothing with rxc."""


def read_network(path):
    """The number of nets, the pads by their names as tuples of words, and the devices as lists of words."""
    pads, devices = {}, []
    with open(path) as lines:
        for words in map(str.split, lines):
            if words[0] == "nets":
                nets = int(words[1])
            elif words[0] in ("pass", "load"):
                devices.append(words)
            elif words[0] not in ("rxnet", "end"):
                pads[tuple(words[:-1])] = int(words[-1])
    return nets, pads, devices


def read_trace(path):
    """The vectors of a trace, which ends with the line `chip`."""
    with open(path) as it:
        return it.read().split()[:-1]

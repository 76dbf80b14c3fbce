#!/usr/bin/env python3
"""Makes the example plans and the texts that they must print.

The texts are worked out from the rules, by hand or by a formula, and never by the program.
Run it in this folder; it writes a NAME.plan and a NAME.txt for each example, and README.md.
"""
import itertools
import struct

BLANK = 65535
WEST, EAST, BRANCH = 0, 1, 2
TABLE = []


def word(n):
    return struct.pack("<H", n)


def code(port):
    return BLANK if port is None else 4 * port[0] + port[1]


class Station:
    """Signals, then switches, then straight sections, in the order of a file."""

    def __init__(self, signals, switches=(), straights=0, sections=None):
        self.signals = list(signals)
        self.switches = list(switches)  # (letter, point section)
        self.straights = straights
        self.far = {}
        self.sections = sections

    def join(self, a, b):
        self.far[a], self.far[b] = b, a

    def line(self, *ports):
        """Joins a run of (leave by, enter by) pairs."""
        for a, b in zip(ports[::2], ports[1::2]):
            self.join(a, b)

    def bytes(self):
        out = word(len(self.signals))
        for c, letter in enumerate(self.signals):
            out += word(code(self.far.get((c, 0)))) + word(code(self.far.get((c, 1)))) + letter
        out += word(len(self.switches))
        for c, (letter, section) in enumerate(self.switches, len(self.signals)):
            for number in (0, 1, 2):
                out += word(code(self.far.get((c, number))))
            out += letter + word(section)
        out += word(self.straights)
        first = len(self.signals) + len(self.switches)
        for c in range(first, first + self.straights):
            out += word(code(self.far.get((c, 0)))) + word(code(self.far.get((c, 1))))
        count = self.sections
        if count is None:
            count = max([s for _, s in self.switches], default=-1) + 1
        out += word(count)
        for k in range(count):
            out += word(sum(1 for _, s in self.switches if s == k))
        return out


def example(name, shows, plan, text):
    with open(name + ".plan", "wb") as f:
        f.write(plan)
    with open(name + ".txt", "w", newline="") as f:
        f.write(text)
    TABLE.append((name, shows))


def refused(name, shows, plan, number, place):
    example(name, shows, plan, f"refused {number} {place}\n")


def changed(plan, *changes):
    """The plan with bytes put in place of others: (offset, bytes)."""
    out = bytearray(plan)
    for at, new in changes:
        out[at:at + len(new)] = new
    return bytes(out)


def one_switch():
    s = Station([b"E", b"E", b"E"], [(b"E", 0)])
    s.line((0, EAST), (3, WEST), (3, EAST), (1, WEST))
    s.join((3, BRANCH), (2, WEST))
    return s.bytes()


# Ten signals s1 to s10 are components 0 to 9, and switches w1 to w4 are 10 to 13.
def fourteen(track=False):
    letters = [b"E" if name % 2 else b"W" for name in range(1, 11)]
    switches = [(b"E", 0), (b"W", 1), (b"E", 2), (b"W", 3)]
    def sig(n):
        return n - 1
    def w(n):
        return 9 + n
    joints = [
        ((sig(3), EAST), (sig(10), WEST)), ((sig(10), EAST), (w(1), WEST)),
        ((w(1), EAST), (sig(9), WEST)), ((sig(9), EAST), (sig(4), WEST)),
        ((w(1), BRANCH), (w(2), BRANCH)), ((sig(1), EAST), (w(2), WEST)),
        ((w(2), EAST), (w(3), WEST)),
        ((w(3), EAST), (sig(6), WEST)), ((sig(6), EAST), (sig(5), WEST)), ((sig(5), EAST), (w(4), WEST)),
        ((w(3), BRANCH), (sig(8), WEST)), ((sig(8), EAST), (sig(7), WEST)), ((sig(7), EAST), (w(4), BRANCH)),
        ((w(4), EAST), (sig(2), WEST)),
    ]
    s = Station(letters, switches, straights=len(joints) if track else 0)
    for k, (a, b) in enumerate(joints):
        if track:
            s.join(a, (14 + k, WEST))
            s.join((14 + k, EAST), b)
        else:
            s.join(a, b)
    return s.bytes()


# The twelve routes as the drawing has them, with how each switch lies.
TWELVE = [
    "s3 s10 w1N s9", "s2 w4N s5 s6", "s2 w4R s7 s8", "s4 s9 w1N s10", "s1 w2N w3N s6 s5", "s1 w2N w3R s8 s7",
    "s6 w3N w2R w1R s10", "s8 w3R w2R w1R s10", "s3 s10 w1R w2R w3N s6 s5", "s3 s10 w1R w2R w3R s8 s7",
    "s2 w4N s5 s6 w3N w2R w1R s10", "s2 w4R s7 s8 w3R w2R w1R s10",
]
# Which piece of straight track lies between two neighbours, west one first, as `fourteen` lays it.
TRACK = {frozenset(p): 14 + k for k, p in enumerate([
    ("s3", "s10"), ("s10", "w1"), ("w1", "s9"), ("s9", "s4"), ("w1", "w2"), ("s1", "w2"), ("w2", "w3"),
    ("w3", "s6"), ("s6", "s5"), ("s5", "w4"), ("w3", "s8"), ("s8", "s7"), ("s7", "w4"), ("w4", "s2")])}


def twelve(track=False):
    rows = []
    for route in TWELVE:
        row, before = [], None
        for part in route.split():
            name, lie = part.rstrip("NR"), part[len(part.rstrip("NR")):]
            number = int(name[1:]) - 1 if name[0] == "s" else int(name[1:]) + 9
            if track and before is not None:
                row.append((TRACK[frozenset((before, name))], ""))
            row.append((number, lie))
            before = name
        rows.append(row)
    rows.sort(key=lambda r: [4 * n + {"": 0, "N": 1, "R": 2}[z] for n, z in r])
    return "".join(" ".join(f"{n}{z}" for n, z in r) + "\n" for r in rows) + "end 12\n"


def ladder(pairs, last=b"E", beside=False):
    """A signal, pairs of switches joined at both legs, and a signal of the given letter; beside it perhaps two signals
    with nothing between them."""
    s = Station([b"E", last] + ([b"E", b"E"] if beside else []))
    n = len(s.signals)
    s.switches = [(b"E" if k % 2 == 0 else b"W", k) for k in range(2 * pairs)]
    at = (0, EAST)
    for k in range(pairs):
        a, b = n + 2 * k, n + 2 * k + 1
        s.join(at, (a, WEST))
        s.join((a, EAST), (b, WEST))
        s.join((a, BRANCH), (b, BRANCH))
        at = (b, EAST)
    s.join(at, (1, WEST))
    if beside:
        s.join((2, EAST), (3, WEST))
    return s.bytes()


def ring(pairs):
    """Pairs of switches in a circle, without a signal, each switch in a point section of its own."""
    s = Station([], [(b"E" if k % 2 == 0 else b"W", k) for k in range(2 * pairs)])
    for k in range(pairs):
        a, b = 2 * k, 2 * k + 1
        s.join((a, EAST), (b, WEST))
        s.join((a, BRANCH), (b, BRANCH))
        s.join((b, EAST), ((b + 1) % (2 * pairs), WEST))
    return s.bytes()


def ladder_rows(pairs, most):
    ways = itertools.product("NR", repeat=pairs)
    rows = ["0 " + " ".join(f"{2 + 2 * k}{z} {3 + 2 * k}{z}" for k, z in enumerate(way)) + " 1\n"
            for way in itertools.islice(ways, most)]
    return "".join(rows)


def main():
    a = one_switch()
    assert a.hex() == "0300ffff0c00450d00ffff450e00ffff45010001000400080045000000000100" + "0100"

    example("one_switch", "three signals and one switch: two routes", a, "0 3N 1\n0 3R 2\nend 2\n")
    example("fourteen", "ten signals and four switches: twelve routes, some past a signal of their direction", fourteen(), twelve())
    example("fourteen_track", "the same station with a straight section at every joint", fourteen(True), twelve(True))
    example("nothing", "no components at all: eight zero bytes", bytes(8), "end 0\n")
    example("ladder15", "15 pairs of switches joined at both legs: 32,768 routes", ladder(15), ladder_rows(15, 32768) + "end 32768\n")
    example("ladder16", "16 pairs: 65,536 routes, of which 65,535 are printed", ladder(16), ladder_rows(16, 65535) + "full 65535\n")

    s = Station([b"E", b"W", b"E"])
    s.line((0, EAST), (1, WEST), (1, EAST), (2, WEST))
    example("past_a_signal", "a path goes on past a signal of the other direction", s.bytes(), "0 1 2\nend 1\n")
    s = Station([b"E", b"E", b"E"])
    s.line((0, EAST), (1, WEST), (1, EAST), (2, WEST))
    example("and_on", "and past one of its own: a route that begins another comes first", s.bytes(), "0 1\n0 1 2\n1 2\nend 3\n")
    s = Station([b"E"], [], 2)
    s.line((0, EAST), (1, WEST), (1, EAST), (2, WEST), (2, EAST), (0, WEST))
    example("circle", "a circle of track: no path comes round to its start", s.bytes(), "end 0\n")
    s = Station([b"E", b"E"], [(b"E", 0), (b"W", 0)])
    s.line((0, EAST), (2, WEST), (2, EAST), (3, WEST), (3, EAST), (1, WEST))
    s.join((2, BRANCH), (3, BRANCH))
    example("two_legs", "two legs between one pair of switches of one point section: two rows", s.bytes(), "0 2N 3N 1\n0 2R 3R 1\nend 2\n")
    s = Station([b"E", b"E"])
    example("two_blanks", "two ports that are both blank are not connected: no route", s.bytes(), "end 0\n")
    example("no_way_out", "250 pairs of switches that end at a signal of the other direction: no route", ladder(250, b"W"), "end 0\n")

    example("most_components", "512 straight sections that lie apart", Station([], [], 512).bytes(), "end 0\n")
    example("most_sections", "512 switches in a circle, each in a point section of its own", ring(256), "end 0\n")
    example("behind_the_dead_ends", "the same, and beside it two signals: the only route comes after all the dead ends", ladder(250, b"W", True), "2 3\nend 1\n")

    # One file for each refusal of the first reading, and one for each place where two faults compete.
    refused("empty", "no bytes: the first count is cut off", b"", 1, 0)
    refused("cut_last", "the last point section record is cut off", a[:-1], 1, 32)
    refused("cut_count", "the count of switches is cut off", word(0) + b"\xff", 1, 2)
    refused("cut_record", "a signal's record is cut off in its letter", word(1) + word(BLANK) + word(BLANK), 1, 2)
    refused("left_over", "a byte follows the last section", a + b"\0", 2, 34)
    refused("longest_input", "as many bytes as are read: 65,528 of them left over", bytes(65536), 2, 8)
    refused("many_signals", "513 signals are told before their records are seen to be cut off", word(513), 3, 0)
    refused("many_in_all", "512 signals and one switch", word(512) + (word(BLANK) * 2 + b"E") * 512 + word(1), 3, 2562)
    refused("many_sections", "513 point sections", bytes(6) + word(513), 3, 6)
    refused("one_component_more", "513 straight sections, all of them there", word(0) + word(0) + word(513) + word(BLANK) * 1026 + word(0), 3, 4)
    refused("one_section_more", "512 switches, and a point section more than there may be", changed(ring(256), (4614, word(513))) + word(1), 3, 4614)
    refused("wrong_letter", "a letter that is neither E nor W", changed(a, (6, b"\0")), 4, 6)
    refused("letter_then_cut", "a wrong letter in the first record, before the second is cut off", word(2) + word(BLANK) * 2 + b"e" + word(BLANK), 4, 6)
    refused("cut_then_letter", "a record that is cut off before its letter", changed(a, (26, b"X"))[:25], 1, 19)
    refused("letter_then_rest", "a wrong letter, and bytes left over", changed(a, (6, b"\0")) + b"\0", 4, 6)
    refused("rest_then_port", "bytes left over, and a far port that does not exist: the second reading begins only after the first", changed(a, (4, word(800))) + b"\0", 2, 34)

    # The second reading.
    refused("no_component", "a far port of a component that the file lacks", changed(a, (4, word(16))), 5, 4)
    refused("no_branch", "a far port that is the branch of a signal", changed(a, (4, word(6))), 5, 4)
    refused("no_third", "a far port number 3", changed(a, (4, word(15))), 5, 4)
    refused("no_section", "a point section that the file lacks", changed(a, (26, word(1))), 5, 26)
    refused("same_way", "a far port that faces the same way", changed(a, (4, word(13))), 6, 4)
    refused("same_component", "a port named as the far port of its own component", changed(a, (4, word(0))), 6, 4)
    refused("not_named_back", "a far port whose record names another", changed(a, (7, word(BLANK))), 7, 21)
    refused("blank_switch", "a switch with a blank port", changed(a, (12, word(BLANK)), (23, word(BLANK))), 9, 23)
    refused("no_switch", "a point section without a switch", a[:30] + word(2) + word(1) + word(0), 10, 34)
    refused("wrong_count", "a point section record that is not the true number of its switches", changed(a, (32, word(2))), 10, 32)
    refused("blank_before_none", "65535 on a switch is a blank, and not a port that does not exist", changed(a, (19, word(BLANK))), 7, 4)
    refused("none_before_same", "port 3 of its own component: it does not exist, and would be of the same component", changed(a, (4, word(3))), 5, 4)
    refused("same_before_back", "a port that faces the same way and does not name this one back", changed(a, (4, word(9))), 6, 4)
    refused("field_order", "an earlier field that is not named back, before a later one that does not exist", changed(a, (4, word(4)), (21, word(800))), 7, 4)
    refused("ports_before_section", "a switch's branch that is not named back, before its point section that the file lacks", changed(a, (12, word(BLANK)), (26, word(7))), 7, 23)
    refused("section_before_count", "a point section that the file lacks, before one whose count is wrong", changed(a, (26, word(1)), (32, word(0))), 5, 26)
    refused("blank_then_count", "a blank port of a switch, before a wrong count", changed(a, (12, word(BLANK)), (23, word(BLANK)), (32, word(5))), 9, 23)

    with open("README.md", "w") as f:
        f.write("# Examples\n\nEach `NAME.plan` is a plan file and `NAME.txt` is what `./print-register examples/NAME.plan` prints for it.\n"
                "`make.py` makes them all; the texts come from the rules and not from the program, and `tests/examples` holds the program to them.\n\n"
                "| example | shows |\n|---|---|\n")
        for name, shows in TABLE:
            f.write(f"| `{name}` | {shows} |\n")


main()

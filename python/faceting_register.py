"""The faceting register for Python: jobs and answers as values, and the proved function.

Needs nothing but the shared library, which `make` builds from what `./library register`
has proved (docs/FORMAT.md has the bytes, include/register.h every promise):

    from faceting_register import Register, job
    square = [(0, 0), (1, 0), (1, 1), (0, 1)]
    answer = Register().answer(job(square))
    print(len(answer.entries), "figures")

A refused job raises Refused, with the refusal's number. What an entry of rank 4 costs:

    prices = [500] * MOST_EDGES
    quote = Register().price(job(points), 0, tariff(prices, joint=15, discount=50))
    print(quote.total, "pence,", quote.subtotals[2], "of them for triangles before the discount")
"""

import ctypes
import os
import struct
from dataclasses import dataclass

VERSION = 1
TOLERANCE_VERSION = 2  # the first whose jobs name a tolerance
RULE_VERSION = 3  # the first whose jobs name a rule of crowded lines
TOLERANCE = 1e-7  # of a job that names none
DEFAULT_BUDGET = 1_000_000
WORKSPACE = 4_194_304
# A count and 1,024 numbers.
PLAIN_ROOM = 4 * (1 + 1024)
USUAL_ROOM = 1 << 20
LONGEST = 1 << 30
ROOM = 17  # the refusal of a buffer that is too short
MOST_EDGES = 190  # edge counts from 1 to this one have a price
SLIP = 8 * MOST_EDGES  # the bytes of a slip

REFUSALS = {
    1: "under 11 bytes, or does not begin with FCT",
    2: "a version that there is not",
    3: "a rank that there is not",
    4: "fewer coordinates than rank - 1, or more than 4",
    5: "fewer than 2 points, or more than 20",
    6: "no row, or more than 120",
    7: "a flag bit that is not in use",
    8: "longer or shorter than the fields say",
    9: "a number that is not finite or beyond its bound",
    10: "the first row moves a point",
    11: "a row that is no permutation",
    12: "too short a workspace",
    13: "a 257th orbit of planes in some call",
    14: "points of a plane that do not give that plane again",
    15: "a 1,025th possible facet or entry in some call",
    16: "the budget is used up",
    17: "the answer buffer is shorter than the answer",
    18: "a package with a wrong length, number or full row",
    19: "a tariff of another length, or with a number above its bound",
    20: "only entries of rank 4 have a price",
    21: "no entry of that number",
    22: "a tolerance outside its range",
    25: "a rule that there is not",
}


class Refused(Exception):
    """A job that the register refuses; `number` says why."""

    def __init__(self, number):
        self.number = number
        words = REFUSALS.get(number, "a number that this module does not know")
        super().__init__(f"refused {number}: {words}")


@dataclass(frozen=True)
class Entry:
    """A listed figure: pairs of an orbit and a possible facet, compound facets split into
    their parts; the pairs before splitting; and what they build."""

    parts: list
    before: list
    figure: list
    points: int
    edges: int
    facets: int


@dataclass(frozen=True)
class Answer:
    """Everything that an answer says; a figure is a list of ranks, each a list of elements,
    each a list of the numbers of elements one rank below."""

    examined: int
    counts: list
    entries: list
    facets: list
    compounds: list


@dataclass(frozen=True)
class Quote:
    """What an entry costs, in pence: less the discount; and all polygons of one edge, of two,
    and so on, without joints and before the discount."""

    total: int
    subtotals: list


def job(points, rows=None, rank=None, *, low=None, high=None, limit=None, tolerance=None,
        rule=None, budget=DEFAULT_BUDGET, offset=None, basis=None):
    """The bytes of a job; rank is by default one more than the number of coordinates."""
    if rule is not None and tolerance is None:
        tolerance = TOLERANCE
    version = VERSION if tolerance is None else TOLERANCE_VERSION
    version = version if rule is None else RULE_VERSION
    dimension = len(points[0]) if points else 0
    rank = dimension + 1 if rank is None else rank
    rows = [range(len(points))] if rows is None else rows
    offset = [0.0] * dimension if offset is None else offset
    if basis is None:
        basis = [[float(i == j) for j in range(dimension)] for i in range(rank - 1)]
    flags = sum(bit for bit, there in ((1, low), (2, high), (4, limit)) if there is not None)
    head = struct.pack("<3sHBBBHB", b"FCT", version, rank, dimension, len(points), len(rows), flags)
    limits = b"".join(struct.pack("<d", x) for x in (low, high) if x is not None)
    if limit is not None:
        limits += struct.pack("<I", limit)
    if tolerance is not None:
        limits += struct.pack("<d", tolerance)
    if rule is not None:
        limits += struct.pack("<B", rule)
    numbers = [*offset, *(x for vector in basis for x in vector), *(x for p in points for x in p)]
    body = struct.pack(f"<I{len(numbers)}d", budget, *numbers)
    return head + limits + body + b"".join(bytes(row) for row in rows)


def tariff(prices, joint, discount=0):
    """The bytes of a tariff: a price in pence for each edge count from 1 up, that of a joint,
    and the discount in thousandths."""
    return struct.pack(f"<{len(prices) + 2}I", *prices, joint, discount)


def package(count, numbers, rows):
    """The bytes of a package: how often a job's points occur in the full set, the number that
    each of them has there, and the full set's symmetries, the identity first."""
    head = struct.pack("<HBH", len(rows), len(rows[0]) if rows else 0, count)
    return head + bytes(numbers) + b"".join(bytes(row) for row in rows)


class _Words:
    """The words of an answer, one behind another."""

    def __init__(self, answer):
        if len(answer) % 4:
            raise ValueError("an answer is made of words of four bytes")
        self.words = struct.unpack(f"<{len(answer) // 4}I", answer)
        self.at = 0

    def word(self):
        if self.at == len(self.words):
            raise ValueError("the words of the answer end too early")
        self.at += 1
        return self.words[self.at - 1]

    def many(self, one):
        count = self.word()
        if count > len(self.words) - self.at:
            raise ValueError("a count of the answer asks for more words than follow it")
        return [one() for _ in range(count)]

    def figure(self):
        return self.many(lambda: self.many(lambda: self.many(self.word)))

    def pair(self):
        return self.word(), self.word()

    def triple(self):
        return self.word(), self.word(), self.word()

    def entry(self):
        return self.many(self.pair), self.many(self.pair), self.figure()


def read_answer(answer):
    """An answer's bytes as a value; ValueError where they are none."""
    words = _Words(answer)
    examined = words.word()
    counts = words.many(words.word)
    entries = words.many(words.entry)
    facets = [words.many(words.figure) for _ in counts]
    compounds = words.many(words.triple)
    listed = [Entry(*entry, *words.triple()) for entry in entries]
    if words.at != len(words.words):
        raise ValueError("something follows the answer")
    return Answer(examined, counts, listed, facets, compounds)


def _library():
    """The shared library: the one that FACETING_REGISTER names, the repository's, or the
    system's."""
    here = os.path.dirname(os.path.abspath(__file__))
    built = os.path.join(here, "..", "target", "shared", "libregister.so")
    named = os.environ.get("FACETING_REGISTER")
    return named or (built if os.path.exists(built) else "libregister.so")


class Register:
    """The proved function, with a workspace that is kept from call to call. Calls keep
    nothing else; two threads need a Register each."""

    def __init__(self, library=None):
        exported = ctypes.CDLL(library or _library())
        self._function, self._plain = exported.register_answer, exported.register_plain
        for function in (self._function, self._plain):
            function.restype = ctypes.c_int64
            function.argtypes = [ctypes.c_char_p, ctypes.c_size_t, ctypes.c_char_p,
                                 ctypes.c_size_t, ctypes.c_char_p, ctypes.c_size_t]
        self._price = exported.register_price
        self._price.restype = ctypes.c_int64
        self._price.argtypes = [ctypes.c_char_p, ctypes.c_size_t, ctypes.c_char_p, ctypes.c_size_t,
                                ctypes.c_uint64, ctypes.c_char_p, ctypes.c_size_t,
                                ctypes.c_char_p, ctypes.c_size_t]
        self._noble = exported.register_noble
        self._noble.restype = ctypes.c_int64
        self._noble.argtypes = [ctypes.c_char_p, ctypes.c_size_t] * 4
        self._workspace = ctypes.create_string_buffer(WORKSPACE)

    def answer_bytes(self, asked, longest=LONGEST):
        """The answer's bytes; a buffer that is too short is replaced by a longer one."""
        def call(buffer, room):
            return self._function(asked, len(asked), self._workspace, WORKSPACE, buffer, room)
        return self._asked(call, longest)

    @staticmethod
    def _asked(call, longest):
        room = min(USUAL_ROOM, longest)
        while True:
            buffer = ctypes.create_string_buffer(room)
            code = call(buffer, room)
            if code >= 0:
                return buffer.raw[:code]
            if -code != ROOM or room == longest:
                raise Refused(-code)
            room = min(8 * room, longest)

    def answer(self, asked, longest=LONGEST):
        """The answer to a job's bytes."""
        return read_answer(self.answer_bytes(asked, longest))

    def noble(self, asked, pack, longest=LONGEST):
        """The answer to a job's bytes with a package's: its figures over the orbits that the
        package keeps, for facets of noble figures."""
        def call(buffer, room):
            return self._noble(asked, len(asked), pack, len(pack), self._workspace, WORKSPACE,
                               buffer, room)
        return read_answer(self._asked(call, longest))

    def price(self, asked, entry, costs):
        """What an entry of a job of rank 4 costs at a tariff; entries count from 0."""
        slip = ctypes.create_string_buffer(SLIP)
        code = self._price(asked, len(asked), self._workspace, WORKSPACE, entry,
                           costs, len(costs), slip, SLIP)
        if code < 0:
            raise Refused(-code)
        return Quote(code, list(struct.unpack(f"<{MOST_EDGES}Q", slip.raw)))

    def plain(self, asked):
        """The ascending numbers of the entries of a job in which no other is found. An entry
        that is not among them has the parts of another; one that is may have them too."""
        buffer = ctypes.create_string_buffer(PLAIN_ROOM)
        code = self._plain(asked, len(asked), self._workspace, WORKSPACE, buffer, PLAIN_ROOM)
        if code < 0:
            raise Refused(-code)
        return list(struct.unpack(f"<{code // 4}I", buffer.raw[:code]))[1:]

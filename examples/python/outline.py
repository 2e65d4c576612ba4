"""Finishing outlines from Python: the calls of liboutline.so, by ctypes alone.

    import outline

    job = outline.Job()
    job.add_ring([(0, 0), (10, 10), (10, 0), (0, 12)])
    outline.finish(job)                     # the paths: Path(open=False, points=[(5, 5, 0), (0, 12, 0), (0, 0, 0)]), ..
    outline.listing(job, rate=250)          # what ./cutlist prints, with the charge

    work = outline.Work(job)                # opened; now any steps, in any order
    work.keep(7)
    work.finish_ring(0)
    work.go_back(7)
    work.records_in(0, 0, 5, 5)             # the records whose rings' boxes meet a window: least x and y, greatest x and y

A job is a Job, or any bytes. A refusal is raised as Refused, with its number and word. One unit is a micrometre; a point is (x, y) or (x, y, z). docs/JOB.md
says what the calls do, examples/c/outline.h what each of them leaves; slices of the right lengths are made here.

The library is target/shared/liboutline.so of this tree (tools/shared makes it), or the file that OUTLINE_LIBRARY names, as tools/install puts it.
"""
import collections
import ctypes
import os
import struct

NONE = 65535
# At most so many points and records, those made while finishing included, so many kept states, and so many segments and joins in a job.
POINTS, RECORDS, STATES = 2048, 512, 4
SEGMENTS, JOINS = 256, 256
# These are always enough: for the paths, for a listing, for a job that is accepted, for the answers of `contained`.
TRAY_BYTES = 3 * RECORDS + 12 * POINTS
TEXT_BYTES = 54 + 49 * RECORDS + 66 * POINTS + 49
REWRITTEN_BYTES = 4 + 21 * POINTS + 8 * RECORDS + 5 * SEGMENTS + 7 * JOINS
ANSWER_BYTES = RECORDS * (RECORDS - 1)
# The work space (docs/WORKSPACE.md): words of a head, columns of points and of records, then the names and the copies of kept states.
HEAD, POINT_COLUMNS, RECORD_COLUMNS = 16, 6, 13
BLOCK = HEAD + POINT_COLUMNS * POINTS + RECORD_COLUMNS * RECORDS
RAISED = 1048576
OPEN, FRONT = 1, 2
# The step due of a closed ring, by its mark.
DUE = ("validity test", "removal turn", "triangle test", "split turn", "done")
DONE = 4
JOINED, WRITTEN = 2, 8
REASONS = {
    1: "no ring in the job",
    2: "joined into record {}",
    3: "too small to begin with",
    4: "too little left once points were removed",
    5: "area under 2 at a crossing",
    6: "too few points left for an outline",
    7: "too small for an outline",
    8: "{} outline {}",
}

_HERE = os.path.dirname(os.path.realpath(__file__))
_TREE = os.path.join(_HERE, "..", "..")

Path = collections.namedtuple("Path", "open points")
Path.__doc__ = "A path of the tray: whether it is open, and its points (x, y, z)."

Ring = collections.namedtuple("Ring", "record flags owner points numbers due present cut_from reason taker box")
Ring.__doc__ = """A record of a work space: its flags, its owner or None; its ring's points (x, y, z) from the first, and their numbers; of a closed ring the step due, a number of DUE, and
the place on the ring where its loop is; the record that it was cut from, or None. Of a record without a ring, and only of one, the reason that it keeps, 1 to 5, and the taker where that is 2. Of one with a ring its box, as the words
have it: least x, least y, greatest x, greatest y."""


class Refused(Exception):
    """A refusal: its number, its word and what it means, the last two as tools/refusals has them."""

    def __init__(self, number):
        self.number = number
        self.word, self.meaning = _words().get(number, ("unknown", "docs/JOB.md says more"))
        super().__init__(f"refused {number}, {self.word}: {self.meaning}")


class Reason(collections.namedtuple("Reason", "number open place taker")):
    """Where a record's ring went: a number from 1 to 8; of 8 whether its path is among the open ones, and its place there; of 2 the record that took it. As text, what ./reasons prints."""

    def __str__(self):
        if self.number == WRITTEN:
            return REASONS[self.number].format("open" if self.open else "closed", self.place)
        return REASONS[self.number].format(self.taker)


# ---- the library

_loaded = {}
_bytes_in = [ctypes.c_char_p, ctypes.c_size_t]
_bytes_out = [ctypes.POINTER(ctypes.c_uint8), ctypes.c_size_t]
_words_in_out = [ctypes.POINTER(ctypes.c_uint32), ctypes.c_size_t]
_CALLS = {
    "work_words": (ctypes.c_uint64, []),
    "finish": (ctypes.c_uint32, _bytes_in + _words_in_out + _bytes_out),
    "list": (ctypes.c_uint64, _bytes_in + _words_in_out + _bytes_out + [ctypes.c_uint32] + _bytes_out),
    "rewrite": (ctypes.c_uint64, _bytes_in + _words_in_out + _bytes_out),
    "open": (ctypes.c_uint32, _bytes_in + _words_in_out),
    "step": (ctypes.c_uint32, _words_in_out + [ctypes.c_uint32]),
    "keep": (ctypes.c_uint32, _words_in_out + [ctypes.c_uint8]),
    "go_back": (ctypes.c_uint32, _words_in_out + [ctypes.c_uint8]),
    "drop": (ctypes.c_uint32, _words_in_out + [ctypes.c_uint8]),
    "write": (ctypes.c_uint32, _words_in_out + _bytes_out),
    "reason": (ctypes.c_uint64, _words_in_out + [ctypes.c_uint32]),
    "lay_together": (ctypes.c_uint32, _words_in_out + _words_in_out),
    "contained": (ctypes.c_uint32, _bytes_in + _words_in_out + _bytes_out + _bytes_out),
    "mend": (ctypes.c_uint32, _bytes_out),
    "records_in": (ctypes.c_uint64, _words_in_out + [ctypes.c_int32] * 4 + _words_in_out),
}


def load(path=None):
    """Loads the library at a path, or where it is looked for otherwise. Without this the first call does. OSError where there is none, or one with another work space than this module reads."""
    path = path or os.environ.get("OUTLINE_LIBRARY") or os.path.join(_TREE, "target", "shared", "liboutline.so")
    if not os.path.exists(path):
        raise OSError(f"no library {path}; tools/shared makes it, or name one in OUTLINE_LIBRARY")
    library = ctypes.CDLL(path)
    calls = {}
    for name, (answer, arguments) in _CALLS.items():
        try:
            call = getattr(library, f"outline_{name}")
        except AttributeError:
            continue
        call.restype, call.argtypes = answer, arguments
        calls[name] = call
    words = calls["work_words"]()
    if words != (1 + STATES) * BLOCK + STATES:
        raise OSError(f"{path} has a work space of {words} words, of another layout than this module reads")
    _loaded.clear()
    _loaded.update(calls)


def has(name):
    """Whether the library has a call, by its name without `outline_`."""
    if not _loaded:
        load()
    return name in _loaded


def _call(name):
    if not has(name):
        raise NotImplementedError(f"this library has no outline_{name}")
    return _loaded[name]


def _words():
    """The words of the refusals by number, read once: the tree's, or those that are installed beside the library."""
    if not hasattr(_words, "found"):
        places = [os.path.join(_TREE, "tools", "refusals")]
        library = os.environ.get("OUTLINE_LIBRARY")
        if library:
            places.append(os.path.join(os.path.dirname(os.path.realpath(library)), "..", "libexec", "outline", "tools", "refusals"))
        lines = []
        for place in filter(os.path.exists, places):
            with open(place, encoding="utf-8") as file:
                lines = [line.rstrip("\n").split("\t") for line in file if line[:1].isdigit()]
            break
        _words.found = {int(number): (word, meaning) for number, word, meaning in lines}
    return _words.found


def refusals():
    """Word and meaning of every refusal, by its number."""
    return dict(_words())


def _answered(number):
    if number:
        raise Refused(number)


def _job(job):
    data = bytes(job)
    return data, len(data)


def _space():
    words = (ctypes.c_uint32 * _call("work_words")())()
    return words, len(words)


def _room(count):
    return (ctypes.c_uint8 * count)(), count


def _within(number, most, what, least=0):
    # ctypes would cut a larger number short without a word.
    if not least <= number <= most:
        raise ValueError(f"{what} is from {least} to {most}: {number}")
    return number


# ---- jobs


class Job:
    """A job from rings. bytes(job) is its file."""

    def __init__(self, settings=0):
        """Settings: bit 0 keeps points that lie in line, bit 1 writes every path the other way round."""
        self.settings, self.points, self.records, self.segments, self.joins = settings, [], [], [], []

    def add_ring(self, points, owner=None, open=False, front=False):
        """Adds points (x, y) or (x, y, z), linked in this order, and the record that starts at the first of them, whose number is the answer; without points a record without a ring."""
        base, record, count = len(self.points), len(self.records), len(points)
        for k, (x, y, *z) in enumerate(points):
            self.points.append((x, y, base + (k + 1) % count, base + (k - 1) % count, record, *(z or [0])))
        self.records.append((OPEN * bool(open) + FRONT * bool(front), NONE if owner is None else owner, base if count else NONE))
        return record

    def add_segment(self, point):
        """Adds a level segment: a point, by its number among all points."""
        self.segments.append((point,))

    def add_join(self, first, second):
        """Adds a join of two points."""
        self.joins.append((first, second))

    def __bytes__(self):
        kinds = ((1, "<B", [(self.settings,)]), (2, "<iiHHHi", self.points), (3, "<BHH", self.records), (4, "<H", self.segments), (5, "<HH", self.joins))
        fields = []
        for tag, layout, values in kinds:
            header = struct.pack("<BH", tag, struct.calcsize(layout))
            fields += [header + struct.pack(layout, *value) for value in values]
        return b"".join(fields)


def paths_of(tray):
    """The paths of a tray's bytes, closed ones before open ones."""
    data, at, paths = bytes(tray), 0, []
    while at + 3 <= len(data) and data[at] in (6, 7):
        tag, length = struct.unpack_from("<BH", data, at)
        paths.append(Path(tag == 7, list(struct.iter_unpack("<iii", data[at + 3 : at + 3 + length]))))
        at += 3 + length
    return paths


def finish(job):
    """The paths of a job, finished in one call."""
    tray, room = _room(TRAY_BYTES)
    _answered(_call("finish")(*_job(job), *_space(), tray, room))
    return paths_of(tray)


def listing(job, rate=0):
    """The job's listing, the same bytes as ./cutlist prints; with a rate, 1 to 1,000 cents for a square decimetre, its last line is the charge."""
    tray, room = _room(TRAY_BYTES)
    text, text_room = _room(TEXT_BYTES)
    count = _call("list")(*_job(job), *_space(), tray, room, _within(rate, 2**32 - 1, "a rate"), text, text_room)
    said = bytes(text[:count]).decode("ascii")
    if said.startswith("refused "):
        raise Refused(int(said.split()[1]))
    return said


def rewrite(job):
    """The job written the one way: two jobs hold one drawing exactly when this gives the same bytes."""
    tray, room = _room(REWRITTEN_BYTES)
    answer = _call("rewrite")(*_job(job), *_space(), tray, room)
    _answered(answer & 0xFFFFFFFF)
    return bytes(tray[: answer >> 32])


def mend(job):
    """The job with each backward link set by the forward ones; every other byte is as it was."""
    data, count = _job(job)
    # One byte more, for a pointer to no bytes must not be null.
    room = (ctypes.c_uint8 * (count + 1)).from_buffer_copy(data + b"\0")
    _answered(_call("mend")(room, count))
    return bytes(room[:count])


def contained(job):
    """The paths of a job, finished in one call, and which closed one lies in which: for each, by its place, the places of those that lie in it."""
    tray, room = _room(TRAY_BYTES)
    answers, answers_room = _room(ANSWER_BYTES)
    _answered(_call("contained")(*_job(job), *_space(), tray, room, answers, answers_room))
    paths = paths_of(tray)
    return paths, inside_of(answers, sum(not path.open for path in paths))


def inside_of(answers, count):
    """For each of so many closed paths the places of those that lie in it, from the answers: a byte for every ordered pair of two, by rising first place and then second, whether the first
    lies in the second; past them all are 0."""
    said, inside = bytes(answers), [[] for _ in range(count)]
    at = said.find(1)
    while at >= 0:
        first, second = divmod(at, count - 1)
        inside[second + (second >= first)].append(first)
        at = said.find(1, at + 1)
    return inside


# ---- a job finished by steps


class Work:
    """A job that is opened: its rings, which can be stepped in any order, and up to four states to come back to. A refused call changes nothing."""

    def __init__(self, job, finished=False):
        """Opens a job: reads it and joins its rings. Or, finished, finishes it in one call: the paths and the reasons can be asked for at once."""
        self._words, self._count = _space()
        if finished:
            _answered(_call("finish")(*_job(job), self._words, self._count, *_room(TRAY_BYTES)))
        else:
            _answered(_call("open")(*_job(job), self._words, self._count))

    def step(self, record):
        """One step on the ring of a record."""
        _answered(_call("step")(self._words, self._count, _within(record, 2**32 - 1, "a record")))

    def finish_ring(self, record):
        """Steps the ring of a record until it is done; the answer is how many steps it took."""
        taken = 0
        while not self.is_done(record):
            self.step(record)
            taken += 1
        return taken

    def finish(self):
        """Steps every ring until it is done, records rising, offcuts too; the answer is how many steps it took."""
        taken, record = 0, 0
        while record < self._words[2]:
            if self.is_closed(record):
                taken += self.finish_ring(record)
            record += 1
        return taken

    def write(self):
        """The paths, once every closed ring is done."""
        tray, room = _room(TRAY_BYTES)
        _answered(_call("write")(self._words, self._count, tray, room))
        return paths_of(tray)

    def reason(self, record):
        """Where the ring of a record went, once every closed ring is done."""
        answer = _call("reason")(self._words, self._count, _within(record, 2**32 - 1, "a record"))
        _answered(answer & 0xFFFFFFFF)
        number, tag, other = answer >> 32 & 255, answer >> 40 & 255, answer >> 48
        written = number == WRITTEN
        return Reason(number, written and tag == 7, other if written else None, other if number == JOINED else None)

    def reasons(self):
        """The reason of each record."""
        return [self.reason(record) for record in range(self._words[2])]

    def records_in(self, left, top, right, bottom):
        """The records, rising, whose rings' boxes have a place in common with a window, edges counted as inside: least x, least y, greatest x, greatest y, any numbers of 32 bits. A window turned
        inside out shows nothing."""
        sides = [_within(side, 2**31 - 1, "a window's side", -(2**31)) for side in (left, top, right, bottom)]
        found = (ctypes.c_uint32 * RECORDS)()
        answer = _call("records_in")(self._words, self._count, *sides, found, RECORDS)
        _answered(answer & 0xFFFFFFFF)
        return list(found[: answer >> 32])

    def keep(self, name):
        """Keeps the state under a name, a number from 0 to 255."""
        _answered(_call("keep")(self._words, self._count, _within(name, 255, "a name")))

    def go_back(self, name):
        """Goes back to the state that a name keeps, which stays kept."""
        _answered(_call("go_back")(self._words, self._count, _within(name, 255, "a name")))

    def drop(self, name):
        """Drops a name, so that its place is free."""
        _answered(_call("drop")(self._words, self._count, _within(name, 255, "a name")))

    def lay_together(self, second):
        """Lays another opened job, a Work, on this one's table: its records come after this one's. Neither may have been stepped."""
        if second is self:
            second = self.copy()
        _answered(_call("lay_together")(self._words, self._count, second._words, second._count))

    def copy(self):
        """Another work space with the same words, kept states too."""
        other = object.__new__(Work)
        other._words, other._count = type(self._words).from_buffer_copy(self._words), self._count
        return other

    # ---- what the words hold, read without a call (docs/WORKSPACE.md)

    def __bytes__(self):
        return bytes(self._words)

    def names(self):
        """The names that are kept, by their places; None for a free place."""
        words = self._words[BLOCK : BLOCK + STATES]
        return [word - 1 if 1 <= word <= 256 else None for word in words]

    def is_closed(self, record):
        """Whether a record has a ring that is closed."""
        return self._of(2, record) != NONE and not self._of(0, record) & OPEN

    def is_done(self, record):
        """Whether a record has no step left to take: it is done, open, without a ring, or unknown."""
        return record >= self._words[2] or not self.is_closed(record) or self._of(3, record) == DONE

    def all_done(self):
        """Whether every closed ring is done, so that the paths can be written."""
        return all(map(self.is_done, range(self._words[2])))

    def counts(self):
        """How many points and records are in use, those made while finishing included."""
        return self._words[1], self._words[2]

    def settings(self):
        return self._words[0]

    def rings(self):
        """A Ring for each record."""
        return self._rings(0)

    def kept(self, name):
        """A Ring for each record of the state that a name keeps; Refused with 14 where it isn't kept."""
        if name not in self.names():
            raise Refused(14)
        return self._rings(BLOCK + STATES + self.names().index(name) * BLOCK)

    def _of(self, column, record):
        return self._words[HEAD + POINT_COLUMNS * POINTS + column * RECORDS + record]

    def _rings(self, base):
        block = self._words[base : base + BLOCK]
        point = [block[HEAD + k * POINTS : HEAD + (k + 1) * POINTS] for k in range(POINT_COLUMNS)]
        after = HEAD + POINT_COLUMNS * POINTS
        columns = [block[after + k * RECORDS : after + k * RECORDS + block[2]] for k in range(RECORD_COLUMNS)]
        return [_ring(number, point, record) for number, record in enumerate(zip(*columns))]


def _ring(number, point, record):
    """The Ring of a record: the columns of the points, the record's words."""
    x, y, following, _, _, z = point
    flags, owner, first, mark, present, _, cut_from, reason, taker, *sides = record
    none = lambda word: None if word == NONE else word
    walk, at = [], first
    # No further than there are points: a copy that somebody else wrote into may hold anything.
    while at < POINTS and len(walk) < POINTS and (not walk or at != first):
        walk.append(at)
        at = following[at]
    points = [(x[p] - RAISED, y[p] - RAISED, z[p] - (z[p] >> 31 << 32)) for p in walk]
    stepped = bool(walk) and not flags & OPEN
    place = walk.index(present) if stepped and mark != DONE and present in walk else None
    gone = not walk
    box = None if gone else tuple(side - RAISED for side in sides)
    return Ring(number, flags, none(owner), points, walk, mark if stepped else None, place, none(cut_from), reason if gone else None, taker if gone and reason == JOINED else None, box)

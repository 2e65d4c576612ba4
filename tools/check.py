"""Where a job is refused with 1 to 9: the first refusal, in the order of docs/JOB.md, and which field, point, record, segment or join earns it.

A second writing of the rules: the proved programs say the number, this says the place. tests/check holds the numbers to each other.
"""
import struct

from job import JOIN, LAYOUT, NONE, OPEN, POINT, RECORD, SEGMENT, SETTINGS

NAMES = {SETTINGS: "settings", POINT: "point", RECORD: "record", SEGMENT: "segment", JOIN: "join"}
MOST = {SETTINGS: 1, POINT: 2048, RECORD: 512, SEGMENT: 256, JOIN: 256}
COORDINATE = 1_048_576
BITS = 3
FRONT = 2


def mending(nexts):
    """Whether backward links would do, and which: what the program mend says of a job that passes 5."""
    wrong = next((point for point in range(len(nexts)) if nexts.count(point) != 1), None)
    if wrong is None:
        return "; the program mend sets every prev by the nexts"
    return f"; past mending: point {wrong} is the next of {nexts.count(wrong) or 'none'}"


class Fault(Exception):
    """A refusal: its number, what earns it, and the field that it is found in, by tag and number, or by its byte."""

    def __init__(self, number, what, tag=None, index=None, byte=None):
        super().__init__(what)
        self.number, self.what, self.tag, self.index, self.byte = number, what, tag, index, byte


def whose(tag, index):
    return NAMES[tag] if tag == SETTINGS else f"{NAMES[tag]} {index}"


# ---- rows 1 to 3, field by field


def fields(data):
    """The values of each tag's fields."""
    found, at, last = {tag: [] for tag in LAYOUT}, 0, 0
    if not data:
        raise Fault(2, "the job is empty")
    while at < len(data):
        tag, value = one_field(data, at, last, sum(map(len, found.values())))
        index = len(found[tag])
        if tag in (SETTINGS, RECORD) and value[0] > BITS:
            raise Fault(2, f"{whose(tag, index)}: its bits are {value[0]}, and only 1 and 2 are used", tag, index, at)
        if index == MOST[tag]:
            raise Fault(3, f"{whose(tag, index)} is one more than the {MOST[tag]:,} that there may be", tag, index, at)
        found[tag].append(value)
        at, last = at + 3 + struct.calcsize(LAYOUT[tag]), tag
    return found


def one_field(data, at, last, count):
    """The tag and the numbers of the field at a byte."""
    here = f"field {count}, at byte {at}"
    if len(data) - at < 3:
        raise Fault(1, f"{here}: {len(data) - at} of the three bytes of tag and length are there", byte=at)
    tag, length = struct.unpack_from("<BH", data, at)
    strange = None
    if tag not in LAYOUT:
        strange = "tags are 1 to 5"
    elif last == 0 and tag != SETTINGS:
        strange = "the first field is the settings, tag 1"
    elif last and tag == SETTINGS:
        strange = "the settings come once, and first"
    elif tag < last:
        strange = f"tags never fall, and the one before is {last}"
    if strange:
        raise Fault(2, f"{here}: its tag is {tag}; {strange}", byte=at)
    size = struct.calcsize(LAYOUT[tag])
    if length != size:
        raise Fault(1, f"{here}: it is a {NAMES[tag]} of {length} bytes, and not of {size}", byte=at)
    if at + 3 + size > len(data):
        raise Fault(1, f"{here}: it is a {NAMES[tag]}, and {at + 3 + size - len(data)} of its bytes are missing", byte=at)
    return tag, struct.unpack_from(LAYOUT[tag], data, at + 3)


# ---- rows 4 to 8, each over the whole job


class Rings:
    """A job's points and records, as joining changes them."""

    def __init__(self, found):
        self.place = [point[:2] for point in found[POINT]]
        self.next, self.prev, self.record = ([point[k] for point in found[POINT]] for k in (2, 3, 4))
        self.flags, self.owner, self.first = ([record[k] for record in found[RECORD]] for k in (0, 1, 2))

    def ring(self, record):
        """The points of a record's ring, from its first."""
        points = [self.first[record]]
        while self.next[points[-1]] != points[0]:
            points.append(self.next[points[-1]])
        return points

    def resolve(self, record):
        """The first with points among a record and its owners, or none."""
        while record != NONE and self.first[record] == NONE:
            record = self.owner[record]
        return record

    def home(self, point):
        return self.resolve(self.record[point])


def off_the_table(rings):
    for point, place in enumerate(rings.place):
        for axis, value in zip("xy", place):
            if abs(value) > COORDINATE:
                raise Fault(4, f"point {point}: its {axis} is {value}, beyond {COORDINATE:,} either way", POINT, point)


def no_such(found):
    """Each number names a point or a record; - stands for none where there may be none."""
    points, records = (POINT, "point"), (RECORD, "record")
    named = {
        POINT: [(2, "its next", points, False), (3, "its prev", points, False), (4, "its record", records, False)],
        RECORD: [(1, "its owner", records, True), (2, "its first point", points, True)],
        SEGMENT: [(0, "its point", points, False)],
        JOIN: [(0, "its first point", points, False), (1, "its second point", points, False)],
    }
    for tag, numbers in named.items():
        for index, value in enumerate(found[tag]):
            for k, word, (kind, name), maybe in numbers:
                if value[k] >= len(found[kind]) and not (maybe and value[k] == NONE):
                    said = f"{whose(tag, index)}: {word} is {value[k]}, and there are {len(found[kind])} {name}s, counted from 0"
                    raise Fault(5, said, tag, index)


def loose(rings):
    for point, (after, before) in enumerate(zip(rings.next, rings.prev)):
        if rings.next[before] != point:
            raise Fault(6, f"point {point}: its prev is {before}, whose next is {rings.next[before]}{mending(rings.next)}", POINT, point)
        if rings.prev[after] != point:
            raise Fault(6, f"point {point}: its next is {after}, whose prev is {rings.prev[after]}{mending(rings.next)}", POINT, point)


def muddled(rings):
    for record in range(len(rings.owner)):
        chain = [record]
        while rings.owner[chain[-1]] != NONE:
            chain.append(rings.owner[chain[-1]])
            if chain[-1] in chain[:-1]:
                raise Fault(7, f"record {record}: its owners go in a circle: {', '.join(map(str, chain[:9]))}{' ..' * (len(chain) > 9)}", RECORD, record)
    on = {}
    for record, first in enumerate(rings.first):
        for point in rings.ring(record) if first != NONE else ():
            home = rings.home(point)
            if home != record:
                to = "none" if home == NONE else f"record {home}"
                raise Fault(7, f"point {point}: it is on the ring of record {record}, and names record {rings.record[point]}, which resolves to {to}", POINT, point)
            on[point] = record
    for point in range(len(rings.place)):
        if point not in on:
            raise Fault(7, f"point {point}: it is on no record's ring", POINT, point)


def open_edge(rings, found):
    for tag in (SEGMENT, JOIN):
        for index, points in enumerate(found[tag]):
            for point in points:
                record = rings.home(point)
                if rings.flags[record] & OPEN:
                    raise Fault(8, f"{whose(tag, index)}: its point {point} is on the open ring of record {record}", tag, index)


# ---- row 9: joins from level segments, then all joins in turn


class Level:
    """A level segment: its number in the job, its left and right point, whether it runs right."""

    def __init__(self, rings, index, op):
        self.index, self.left, self.right, self.forward = index, op, None, True
        back, ahead = ends(rings, op)
        if rings.place[back][0] < rings.place[ahead][0]:
            self.left, self.right = back, ahead
        elif rings.place[ahead][0] < rings.place[back][0]:
            self.left, self.right, self.forward = ahead, back, False


def ends(rings, op):
    """How far the level edge through a point runs, back and ahead."""
    height, home = rings.place[op][1], rings.home(op)
    first = rings.first[home]
    if rings.flags[home] & FRONT:
        walled = lambda wall, way: walk(op, way, lambda p: p == wall or rings.place[way[p]][1] != height)
        return walled(rings.next[first], rings.prev), walled(first, rings.next)
    free = lambda stop, way: walk(op, way, lambda p: way[p] == stop or rings.place[way[p]][1] != height)
    back = free(op, rings.prev)
    return back, free(back, rings.next)


def walk(point, way, ended):
    while not ended(point):
        point = way[point]
    return point


def levels(rings, segments):
    """Those that count, by their left end; equal ones in their order."""
    found, taken = [], set()
    for index, (op,) in enumerate(segments):
        level = Level(rings, index, op)
        if level.right is not None and level.left not in taken:
            taken.add(level.left)
            found.append(level)
    return sorted(found, key=lambda level: rings.place[level.left][0])


def copied(rings, point, after):
    """A copy of a point, right after it or right before it."""
    new = len(rings.place)
    if new == MOST[POINT]:
        raise Fault(10, f"the joins of the level segments need more than {MOST[POINT]:,} points")
    before, behind = (point, rings.next[point]) if after else (rings.prev[point], point)
    rings.place.append(rings.place[point])
    rings.record.append(rings.record[point])
    rings.next.append(behind)
    rings.prev.append(before)
    rings.next[before] = rings.prev[behind] = new
    return new


def made_joins(rings, segments):
    """The joins of pairs that run against each other and overlap: two new points, and whose they are."""
    x = lambda point: rings.place[point][0]
    sorted_levels, joins = levels(rings, segments), []
    for i, one in enumerate(sorted_levels):
        for other in sorted_levels[i + 1 :]:
            if x(other.left) >= x(one.right) or other.forward == one.forward or x(one.left) >= x(other.right):
                continue
            height = rings.place[one.left][1]
            ahead, behind = (rings.next, rings.prev) if one.forward else (rings.prev, rings.next)
            moved = lambda point, way, far: walk(point, way, lambda p: x(way[p]) > far or rings.place[way[p]][1] != height)
            one.left = moved(one.left, ahead, x(other.left))
            other.left = moved(other.left, behind, x(one.left))
            first, second = (one, other) if one.forward else (other, one)
            pair = copied(rings, first.left, True), copied(rings, second.left, False)
            joins.append((*pair, SEGMENT, one.index, f"the join that segments {one.index} and {other.index} make"))
    return joins


def join(rings, a, b):
    """b becomes the next of a; one ring falls in two, two become one."""
    one, other = rings.home(a), rings.home(b)
    if one == other and len(rings.first) == MOST[RECORD]:
        raise Fault(10, f"the joins need more than {MOST[RECORD]} records")
    after, before = rings.next[a], rings.prev[b]
    rings.next[a], rings.prev[b], rings.prev[after], rings.next[before] = b, a, before, after
    if one != other:
        rings.first[other], rings.owner[other] = NONE, one
        return
    new = len(rings.first)
    rings.first.append(after)
    rings.owner.append(one)
    rings.flags.append(0)
    for point in rings.ring(new):
        rings.record[point] = new
    if rings.record[rings.first[one]] == new:
        rings.first[one], rings.record[a] = a, one


def knots(rings, found):
    own = [(a, b, JOIN, index, f"join {index}") for index, (a, b) in enumerate(found[JOIN])]
    for a, b, tag, index, said in own + made_joins(rings, found[SEGMENT]):
        if rings.next[a] == b:
            raise Fault(9, f"{said}: at its turn point {b} is already the next of point {a}", tag, index)
        join(rings, a, b)


def fault(data):
    """The first refusal of a job, 1 to 9, or 10 where joining finds no room; none where joining ends well."""
    try:
        found = fields(data)
        rings = Rings(found)
        off_the_table(rings)
        no_such(found)
        loose(rings)
        muddled(rings)
        open_edge(rings, found)
        knots(rings, found)
    except Fault as found_fault:
        return found_fault
    return None

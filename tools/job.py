"""A job as fields and as text, for the tools beside it. docs/JOB.md has both formats."""
import re
import struct

NONE = 65535
OPEN = 1
# What one text may unroll to: more lines than any job has fields, so that a slip in `times` ends.
LINES = 1_000_000
# Tag of each field, and how its value is laid out.
SETTINGS, POINT, RECORD, SEGMENT, JOIN = 1, 2, 3, 4, 5
LAYOUT = {SETTINGS: "<B", POINT: "<iiHHHi", RECORD: "<BHH", SEGMENT: "<H", JOIN: "<HH"}


class Bad(Exception):
    """What is wrong with a line of a job's text."""


def field(tag, *numbers):
    value = struct.pack(LAYOUT[tag], *numbers)
    return struct.pack("<BH", tag, len(value)) + value


class Job:
    """The fields of a job by tag, and the bytes that follow what can be read as fields."""

    def __init__(self):
        self.fields = {tag: [] for tag in LAYOUT}
        self.tail = b""
        # The text's line that each field, and each byte of the tail, comes from, where there is a text.
        self.lines = {tag: [] for tag in LAYOUT}
        self.tail_lines = []

    points = property(lambda self: self.fields[POINT])
    records = property(lambda self: self.fields[RECORD])

    def came_from(self, line):
        """What is new comes from this line."""
        for tag, values in self.fields.items():
            self.lines[tag] += [line] * (len(values) - len(self.lines[tag]))
        self.tail_lines += [line] * (len(self.tail) - len(self.tail_lines))

    def line_of(self, tag, index, byte):
        """The line of a field, by its tag and number or by its byte; none where there is no text, or the byte is past the end."""
        if tag is not None and index < len(self.lines[tag]):
            return self.lines[tag][index]
        before = len(self.bytes()) - len(self.tail)
        return self.tail_lines[byte - before] if byte is not None and 0 <= byte - before < len(self.tail_lines) else None

    def bytes(self):
        return b"".join(field(tag, *value) for tag in LAYOUT for value in self.fields[tag]) + self.tail

    def add_ring(self, flags, owner, places):
        """New points linked in this order, and a record that starts at the first of them."""
        base, count, record = len(self.points), len(places), len(self.records)
        if base + count > NONE or record >= NONE:
            raise Bad("more points or records than two bytes can number")
        for k, (x, y, z) in enumerate(places):
            self.points.append((x, y, base + (k + 1) % count, base + (k - 1) % count, record, z))
        self.records.append((flags, owner, base if count else NONE))


def read(data):
    """The fields that a job begins with, in order and of the right length; the rest is its tail."""
    job, at, last = Job(), 0, 0
    while at + 3 <= len(data):
        tag, length = struct.unpack_from("<BH", data, at)
        expected = tag == SETTINGS if last == 0 else tag > SETTINGS and tag >= last
        if not expected or tag not in LAYOUT or length != struct.calcsize(LAYOUT[tag]) or at + 3 + length > len(data):
            break
        job.fields[tag].append(struct.unpack_from(LAYOUT[tag], data, at + 3))
        at, last = at + 3 + length, tag
    job.tail = data[at:]
    return job


def number(word, least, most):
    if re.fullmatch(r"-?[0-9]*\.[0-9]+", word):
        raise Bad(f"not a whole number: {word}; one unit is a micrometre")
    if not re.fullmatch(r"-?[0-9]{1,12}" if least < 0 else r"[0-9]{1,12}", word) or not least <= int(word) <= most:
        raise Bad(f"not a number from {least} to {most}: {word}")
    return int(word)


def byte(word):
    return number(word, 0, 255)


def index(word):
    return number(word, 0, NONE)


def maybe(word):
    return NONE if word == "-" else index(word)


def place(word):
    """x,y or x,y,z; without one z is 0."""
    numbers = word.split(",")
    if "" in numbers[:1] + numbers[-1:] and len(numbers) > 1:
        raise Bad(f"no space may stand beside a comma: {word}; a point is x,y or x,y,z")
    if len(numbers) not in (2, 3):
        raise Bad(f"not a point x,y or x,y,z: {word}")
    x, y, z = [number(part, -(2**31), 2**31 - 1) for part in numbers] + [0] * (3 - len(numbers))
    return x, y, z


def place_text(x, y, z):
    return f"{x},{y},{z}" if z else f"{x},{y}"


# The numbers of the lines that are one field: how each word is read.
WORDS = {"record": (RECORD, byte, maybe, maybe), "segment": (SEGMENT, index), "join": (JOIN, index, index)}


class Text:
    """A job being read from its text, line by line."""

    def __init__(self):
        self.job = Job()
        self.lines = 0

    def take(self, line):
        self.lines += 1
        if self.lines > LINES:
            raise Bad(f"more than {LINES:,} lines, counting those that `times` repeats")
        name, *words = line.split()
        if name == "times" and len(words) > 1:
            for _ in range(index(words[0])):
                for part in " ".join(words[1:]).split(" ; "):
                    self.take(part)
        elif name == "bytes":
            self.take_bytes("".join(words))
        elif name == "settings" and len(words) == 1:
            if self.job.fields[SETTINGS]:
                raise Bad("settings a second time")
            self.job.fields[SETTINGS].append((byte(words[0]),))
        elif not self.job.fields[SETTINGS]:
            raise Bad(f"before any settings: {line}")
        else:
            self.take_field(line, name, words)

    def take_bytes(self, digits):
        if len(digits) % 2 or not re.fullmatch(r"[0-9a-fA-F]*", digits):
            raise Bad(f"not bytes in hex: {digits}")
        self.job.tail += bytes.fromhex(digits)

    def take_field(self, line, name, words):
        if name == "point" and len(words) == 4:
            x, y, z = place(words[0])
            self.job.points.append((x, y, *map(index, words[1:]), z))
        elif name in WORDS and len(words) == len(WORDS[name]) - 1:
            tag, *readers = WORDS[name]
            self.job.fields[tag].append(tuple(reader(word) for reader, word in zip(readers, words)))
        elif name == "ring" and "," in "".join(words[:2]):
            raise Bad(f"a ring has FLAGS and OWNER, - for none, before its points: {line[:60]}")
        elif name == "ring" and len(words) >= 2:
            self.job.add_ring(byte(words[0]), maybe(words[1]), [place(word) for word in words[2:]])
        elif name == "fill" and len(words) == 1:
            self.job.add_ring(OPEN, NONE, [(0, 0, 0)] * index(words[0]))
        else:
            raise Bad(f"not a line of a job: {line}")


def from_text(text):
    """The job that a text writes. What is wrong with it is raised as Bad, with the number of its line."""
    reading = Text()
    for count, line in enumerate(text.split("\n"), 1):
        line = line.split("#")[0].strip()
        try:
            if line:
                reading.take(line)
                reading.job.came_from(count)
        except Bad as bad:
            raise Bad(f"line {count}: {bad}") from None
        except RecursionError:
            raise Bad(f"line {count}: `times` within `times` too often") from None
    return reading.job


def as_text(data):
    """The text that the bytes are, or none."""
    try:
        # Some editors put a byte order mark before a text.
        text = data.decode("utf-8-sig")
    except UnicodeError:
        return None
    return None if any(character < " " and character not in "\t\r\n" for character in text) else text


def ring_length(job, base, record):
    """How many points from `base` on are linked in their order and name this record; 0 where the record does not start there."""
    if job.records[record][2] != base or base >= len(job.points):
        return 0
    count = job.points[base][3] - base + 1
    if not 0 < count <= len(job.points) - base:
        return 0
    links = [(base + (k + 1) % count, base + (k - 1) % count, record) for k in range(count)]
    return count if [point[2:5] for point in job.points[base : base + count]] == links else 0


def ring_lines(job):
    """Points and records as text: rings where they stand in order, then field by field."""
    none = lambda n: "-" if n == NONE else n
    base, record = 0, 0
    while record < len(job.records):
        flags, owner, first = job.records[record]
        count = ring_length(job, base, record)
        if count:
            places = " ".join(place_text(x, y, z) for x, y, _, _, _, z in job.points[base : base + count])
            yield f"ring {flags} {none(owner)} {places}    # record {record}, points {base} to {base + count - 1}"
        elif first == NONE or first < base:
            yield f"record {flags} {none(owner)} {none(first)}    # record {record}"
        else:
            break
        base, record = base + count, record + 1
    for k, (x, y, following, before, name, z) in enumerate(job.points[base:], base):
        yield f"point {place_text(x, y, z)} {following} {before} {name}    # point {k}"
    for k, (flags, owner, first) in enumerate(job.records[record:], record):
        yield f"record {flags} {none(owner)} {none(first)}    # record {k}"


def to_text(data):
    """A job's bytes as text, from which `from_text` makes the same bytes."""
    job = read(data)
    lines = [f"settings {settings}" for (settings,) in job.fields[SETTINGS]]
    lines += ring_lines(job)
    lines += [f"segment {point}" for (point,) in job.fields[SEGMENT]]
    lines += [f"join {first} {second}" for first, second in job.fields[JOIN]]
    if job.tail:
        lines.append(f"bytes {job.tail.hex()}")
    return "".join(line + "\n" for line in lines)

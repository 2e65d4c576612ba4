"""outline.py against the stored answers (tests/answers/README.md), and by itself. Called by tests/python; prints a line for each part."""
import ast
import glob
import os
import re
import sys

sys.dont_write_bytecode = True
sys.path[:0] = ["examples/python", "tools"]
import job as fields
import outline


def cases(name):
    """The lines of each case of a file of stored answers, with the job's bytes by itself."""
    with open(os.path.join("tests", "answers", name)) as file:
        for block in file.read().strip().split("\n\n"):
            lines = block.split("\n")
            data = next(line for line in lines if line.split(" ")[0] == "job")
            yield bytes.fromhex(data[4:]), [line for line in lines[1:] if line != data], lines[0]


STORED = list(cases("stored.txt"))


def refused(number, call, *words):
    """The call is refused with a number, or it is a fault."""
    try:
        answer = call(*words)
    except outline.Refused as why:
        assert why.number == number, (why.number, number)
        return why
    raise AssertionError(f"not refused with {number}: {answer}")


def in_order(work, order):
    """Steps until all is done: the lowest, the highest, or one after the other."""
    turn = 0
    while not work.all_done():
        due = [record for record in range(work.counts()[1]) if not work.is_done(record)]
        work.step({"rising": due[0], "falling": due[-1], "in turn": due[turn % len(due)]}[order])
        turn += 1


def finished():
    count = 0
    for data, (*listing, tray), name in STORED:
        listing = "".join(line + "\n" for line in listing)
        if listing.startswith("refused"):
            number = int(listing.split()[1])
            for call in (outline.finish, outline.listing):
                refused(number, call, data)
            continue
        paths = outline.paths_of(bytes.fromhex(tray[5:]))
        work = outline.Work(data)
        work.finish()
        assert outline.finish(data) == paths == work.write() == outline.Work(data, finished=True).write(), name
        assert outline.listing(data) == listing, name
        for order in ("falling", "in turn") if len(data) < 400 else ():
            work = outline.Work(data)
            in_order(work, order)
            assert sorted(work.write()) == sorted(paths), (name, order)
        count += 1
    assert count > 150 and len(STORED) - count > 100
    print(f"python: {count} stored answers, in one call, by steps and listed; {len(STORED) - count} refusals with their numbers")


def charged():
    count = 0
    for data, (at, *listing), name in cases("charged.txt"):
        words = re.fullmatch(r'at(?: "([0-9]{1,9})")?', at)
        # A rate of 0 is none for the library, and refused by the program.
        if not words or words[1] and int(words[1]) == 0:
            continue
        rate, listing = int(words[1] or 0), "".join(line + "\n" for line in listing)
        if listing.startswith("refused"):
            refused(int(listing.split()[1]), outline.listing, data, rate)
        else:
            assert outline.listing(data, rate) == listing, name
        count += 1
    assert count > 20, count
    print(f"python: {count} stored charges")


def rewritten():
    count = 0
    for data, (line,), name in cases("rewritten.txt"):
        if line.startswith("refused"):
            refused(int(line.split()[1]), outline.rewrite, data)
        else:
            assert outline.rewrite(data).hex() == line[8:], name
        count += 1
    assert count > 50, count
    print(f"python: {count} jobs written the one way, as stored")


def told():
    count, seen = 0, set()
    for data, lines, name in cases("told.txt"):
        if lines and lines[0].startswith("refused"):
            continue
        work = outline.Work(data, finished=True)
        assert [f"record {record}: {reason}" for record, reason in enumerate(work.reasons())] == lines, name
        for ring, reason in zip(work.rings(), work.reasons()):
            # What the words keep of a record without a ring is the reason that is told.
            assert ring.reason == (None if ring.points else reason.number) and (ring.points or ring.taker == reason.taker), name
            seen.add(reason.number)
        count += 1
    assert seen == set(outline.REASONS), seen
    print(f"python: the reasons of {count} jobs, as stored")


def kept():
    """The first step of every ring is tried and taken back, with another state kept beside it."""
    count = 0
    for data, lines, name in STORED:
        if lines[0].startswith("refused"):
            continue
        work = outline.Work(data)
        assert work.names() == [None] * outline.STATES
        work.keep(0)
        opened = work.rings()
        due = [ring.record for ring in opened if ring.due is not None]
        for record in due:
            work.step(record)
        stepped = work.rings()
        work.keep(255)
        work.finish()
        assert work.kept(0) == opened and work.kept(255) == stepped and work.names()[:2] == [0, 255], name
        paths = work.write()
        work.go_back(0)
        assert work.rings() == opened, name
        work.drop(0)
        refused(14, work.go_back, 0), refused(14, work.drop, 0), refused(14, work.kept, 0)
        work.go_back(255)
        assert work.rings() == stepped, name
        other = work.copy()
        work.finish()
        assert work.write() == paths and other.rings() == stepped, name
        for free in (1, 2, 3):
            work.keep(free)
        refused(15, work.keep, 4)
        count += 1
    print(f"python: states of {count} jobs kept, gone back to and dropped")


def laid():
    if not outline.has("lay_together"):
        print("python: skipped: laying together: the library has no outline_lay_together yet")
        return
    count, small = 0, [data for data, lines, _ in STORED if not lines[0].startswith("refused") and len(data) < 1500]
    for first, second in zip(small, small[1:] + small[:1]):
        pair, other = outline.Work(first), outline.Work(second)
        if pair.settings() != other.settings():
            refused(16, pair.lay_together, other)
            continue
        words, records = bytes(other), pair.counts()[1]
        pair.lay_together(other)
        assert bytes(other) == words and [ring.points for ring in pair.rings()[records:]] == [ring.points for ring in other.rings()]
        pair.finish()
        assert sorted(pair.write()) == sorted(outline.finish(first) + outline.finish(second))
        count += 1
    work = outline.Work(small[0])
    work.lay_together(work)
    assert work.counts()[1] == 2 * outline.Work(small[0]).counts()[1]
    assert count > 20, count
    print(f"python: {count} pairs of jobs on one table, each with its own outlines")


def within():
    for count in range(7):
        pairs = [(first, second) for first in range(count) for second in range(count) if first != second]
        answers = bytes((3 * first + 5 * second + count) % 2 for first, second in pairs) + bytes(9)
        want = [[first for (first, other), answer in zip(pairs, answers) if other == second and answer] for second in range(count)]
        assert outline.inside_of(answers, count) == want, count
    if not outline.has("contained"):
        print("python: skipped: which shape lies in which: the library has no outline_contained yet")
        return
    with open("samples/plate.job", "rb") as file:
        plate = file.read()
    # The plate; its two letters, which are holes; the island in each of them.
    assert outline.contained(plate) == (outline.finish(plate), [[1, 2, 3, 4], [3], [4], [], []]), outline.contained(plate)[1]
    for data, lines, name in STORED:
        if lines[0].startswith("refused"):
            refused(int(lines[0].split()[1]), outline.contained, data)
        else:
            paths, inside = outline.contained(data)
            assert paths == outline.finish(data) and len(inside) == sum(not path.open for path in paths), name
    print(f"python: which shape lies in which, of the plate and of {len(STORED)} stored jobs")


def mended():
    if not outline.has("mend"):
        print("python: skipped: mending: the library has no outline_mend yet")
        return
    count = 0
    for data, lines, name in STORED:
        if lines[0].startswith("refused") and int(lines[0].split()[1]) < 9:
            continue
        read = fields.read(data)
        read.fields[fields.POINT] = [(x, y, after, 0, record, z) for x, y, after, _, record, z in read.points]
        assert outline.mend(read.bytes()) == outline.mend(data) == data, name
        count += 1
    lost = outline.Job()
    lost.add_ring([(0, 0), (9, 0), (0, 9)])
    lost.points[1] = (9, 0, 0, 0, 0, 0)
    refused(17, outline.mend, lost), refused(2, outline.mend, b""), refused(1, outline.mend, b"\1")
    print(f"python: the backward links of {count} jobs mended")


def around(points):
    """The box of a ring's points."""
    xs, ys = sorted(point[0] for point in points), sorted(point[1] for point in points)
    return (xs[0], ys[0], xs[-1], ys[-1])


def shown(work):
    """Each ring's box is its points'; windows of every kind list the records whose boxes have a place in common with them, and no other."""
    boxes = [(ring.record, around(ring.points)) for ring in work.rings() if ring.points]
    assert [(ring.record, ring.box) for ring in work.rings() if ring.points] == boxes
    assert all(ring.box is None for ring in work.rings() if not ring.points)
    ends = -(2**31), 2**31 - 1
    assert work.records_in(ends[0], ends[0], ends[1], ends[1]) == [record for record, _ in boxes]
    count = 0
    for _, (left, top, right, bottom) in boxes[:40]:
        for by in (0, 1):
            for window in (
                (right + by, top, right + 9, bottom), (left - 9, top, left - by, bottom), (left, bottom + by, right, bottom + 9), (left, top - 9, right, top - by),
                (right + by, bottom + by, right + 9, bottom + 9), (left, top, left, top), (right + 1, top, left, bottom), (left, bottom + 1, right, top), (ends[0], ends[0], ends[0], ends[1]),
            ):
                x, y, x2, y2 = window
                want = [record for record, (l, t, r, b) in boxes if max(x, l) <= min(x2, r) and max(y, t) <= min(y2, b)]
                assert work.records_in(*window) == want, (window, want)
                count += 1
    return count


def windows():
    if not outline.has("records_in"):
        print("python: skipped: windows: the library has no outline_records_in yet")
        return
    count = 0
    for data, lines, name in STORED:
        if lines[0].startswith("refused"):
            continue
        work = outline.Work(data)
        count += shown(work)
        work.keep(7)
        for record in [ring.record for ring in work.rings() if ring.due is not None]:
            work.step(record)
        count += shown(work)
        work.finish()
        count += shown(work)
        work.go_back(7)
        count += shown(work)
    for sides in ((2**31, 0, 0, 0), (0, -(2**31) - 1, 0, 0)):
        try:
            work.records_in(*sides)
        except ValueError:
            continue
        raise AssertionError(f"{sides} is taken")
    assert count > 5000, count
    print(f"python: {count} windows, after opening, steps, finishing and going back")


def jobs():
    """A job from rings is the job that tools/jobtext makes; the module's own example; numbers that ctypes would cut short."""
    for name in sorted(glob.glob("samples/*.job")):
        with open(name, "rb") as file:
            data = file.read()
        read = fields.read(data)
        made = outline.Job(read.fields[fields.SETTINGS][0][0])
        for record, (flags, owner, first) in enumerate(read.records):
            count = fields.ring_length(read, len(made.points), record)
            made.add_ring([(x, y, z) for x, y, _, _, _, z in read.points[first : first + count]], None if owner == outline.NONE else owner, flags & outline.OPEN, flags & outline.FRONT)
        for (point,) in read.fields[fields.SEGMENT]:
            made.add_segment(point)
        for join in read.fields[fields.JOIN]:
            made.add_join(*join)
        assert bytes(made) == data or name == "samples/refused.job", name
    job = outline.Job()
    job.add_ring([(0, 0), (10, 10), (10, 0), (0, 12)])
    assert str(outline.finish(job)[0]) in outline.__doc__, outline.finish(job)
    work = outline.Work(job)
    assert (work.finish_ring(0), work.finish(), work.counts()) == (8, 5, (6, 2)), (work.counts())
    for call, word in ((work.keep, 256), (work.keep, -1), (work.step, -1), (work.step, 2**32), (work.reason, -1), (lambda rate: outline.listing(job, rate), -1)):
        try:
            call(word)
        except ValueError:
            continue
        raise AssertionError(f"{word} is taken")
    refused(12, work.step, 0), refused(12, work.step, 2**32 - 1), refused(12, work.reason, 2), refused(13, outline.listing, job, 1001)
    print("python: jobs from rings are the samples' bytes; numbers out of range are refused here")


def words():
    """Every refusal of the header has a word, and is raised with it; the lengths and limits are the header's."""
    with open("examples/c/outline.h") as file:
        header = file.read()
    numbers = {int(number) for number in re.findall(r"^ {4}OUTLINE_[A-Z_]+ = (\d+),? +/\* ", header.split("enum outline_refusal")[1].split("};")[0], re.M)}
    assert set(outline.refusals()) >= numbers, numbers - set(outline.refusals())
    defined = {name: int(number) for name, number in re.findall(r"^#define OUTLINE_([A-Z_]+) (\d+)$", header, re.M)}
    same = {name for name in defined if getattr(outline, name, None) == defined[name]}
    assert same >= {"POINTS", "RECORDS", "SEGMENTS", "JOINS", "STATES", "TRAY_BYTES", "TEXT_BYTES", "REWRITTEN_BYTES"} and outline.RAISED == defined["COORDINATE"], same
    assert defined["WORK_WORDS"] == (1 + outline.STATES) * outline.BLOCK + outline.STATES
    assert not [name for name in set(defined) - same if hasattr(outline, name)], same
    why = refused(2, outline.finish, b"")
    assert (why.word, str(why)) == ("strange", f"refused 2, strange: {why.meaning}"), why
    # Python 3.9 reads all of it.
    for name in ["examples/python/outline.py", "tools/table", *glob.glob("tools/*.py"), *glob.glob("tests/*.py")]:
        with open(name) as file:
            ast.parse(file.read(), name, feature_version=(3, 9))
    print(f"python: the words of {len(numbers)} refusals")


if __name__ == "__main__":
    for part in (jobs, words, finished, charged, rewritten, told, kept, laid, within, mended, windows):
        part()

"""What the table's page can ask for: a drawing's outlines, steps, kept states, the records in a window. Each answer is plain data; a refusal has its number, its word and what to do about it."""
import base64
import collections
import glob
import os
import re
import threading

import check
import job
import outline

TREE = os.path.join(os.path.dirname(os.path.realpath(__file__)), "..")
# So many tabs have a work space; then the one that was longest silent loses its own.
TABS = 32
# A drawing with more points is not drawn: no job has as many.
DRAWN = 4 * outline.POINTS
REVERSED = 2
NAMES = "ABCD"


class Bad(Exception):
    """What a call cannot do, in words for the page; not a refusal."""


# ---- a drawing: the fields of a job, as the page holds them


def fields_of(data):
    read = job.read(data)
    if len(read.points) > DRAWN:
        raise Bad(f"{len(read.points):,} points are more than the table draws; a job has at most {outline.POINTS:,}")
    settings = read.fields[job.SETTINGS]
    kinds = {"points": job.POINT, "records": job.RECORD, "segments": job.SEGMENT, "joins": job.JOIN}
    return {"settings": settings[0][0] if settings else None, "tail": read.tail.hex(), **{name: read.fields[tag] for name, tag in kinds.items()}}


def bytes_of(fields):
    made = job.Job()
    if fields["settings"] is not None:
        made.fields[job.SETTINGS].append((int(fields["settings"]),))
    for name, tag in (("points", job.POINT), ("records", job.RECORD), ("segments", job.SEGMENT), ("joins", job.JOIN)):
        made.fields[tag] += [tuple(map(int, value)) for value in fields[name]]
    made.tail = bytes.fromhex(fields["tail"])
    try:
        return made.bytes()
    except job.struct.error:
        raise Bad("a number does not fit into its field") from None


def given(asked):
    """The bytes of the job that a call brings: as text, as fields, or as a file's bytes, which may be text."""
    if "fields" in asked:
        return bytes_of(asked["fields"])
    text = asked.get("text")
    if text is None:
        data = base64.b64decode(asked["file"])
        text = job.as_text(data)
        if text is None:
            return data
    try:
        return job.from_text(text).bytes()
    except job.Bad as bad:
        raise Bad(str(bad)) from None


# ---- refusals


def advice():
    """What to do about each refusal, by its number: the last column of the table in docs/JOB.md, without its marks."""
    found = {}
    with open(os.path.join(TREE, "docs", "JOB.md"), encoding="utf-8") as page:
        for line in page:
            row = re.fullmatch(r"\| (\d+) \| [a-z ]+ \| .* \| (.*) \|\n", line)
            if row:
                found.setdefault(int(row[1]), re.sub(r"`|\[([^]]*)\]\([^)]*\)", r"\1", row[2]))
    return found


ADVICE = advice()


def refusal(refused, data=None):
    """A refusal as the page shows it; of a job, where it is wrong."""
    fault = check.fault(data) if data is not None and refused.number <= 9 else None
    where = fault.what if fault and fault.number == refused.number else None
    return {"number": refused.number, "word": refused.word, "meaning": refused.meaning, "advice": ADVICE.get(refused.number, ""), "where": where}


# ---- answers


def path_of(path, settings):
    """A path with the listing's word and twice its area."""
    area = None
    word = "line"
    if not path.open:
        area = sum((before[1] + point[1]) * (before[0] - point[0]) for before, point in zip(path.points[-1:] + path.points, path.points))
        sense = -area if settings & REVERSED else area
        word = "piece" if sense > 0 else "hole" if sense < 0 else "flat"
    return {"word": word, "area": area, "points": path.points}


def finished(work):
    """Paths and reasons of a work space whose closed rings are all done."""
    reasons = [{"number": reason.number, "open": reason.open, "place": reason.place, "said": str(reason)} for reason in work.reasons()]
    return {"paths": [path_of(path, work.settings()) for path in work.write()], "reasons": reasons}


def drawn(data, rate=0):
    """A drawing finished in one call: its text, its file, what came of it and its listing, or its refusal; of a bad rate both."""
    answer = {"text": job.to_text(data), "fields": fields_of(data), "file": base64.b64encode(data).decode(), "refused": None}
    try:
        answer.update(finished(outline.Work(data, finished=True)))
        answer["inside"] = outline.contained(data)[1] if outline.has("contained") else None
    except outline.Refused:
        # Said by the listing, after a bad rate.
        pass
    try:
        answer["listing"] = outline.listing(data, rate)
    except outline.Refused as refused:
        answer["listing"] = f"refused {refused.number}\n"
        answer["refused"] = refusal(refused, data)
    return answer


def rings_of(rings):
    told = lambda ring: str(outline.Reason(ring.reason, False, None, ring.taker)) if ring.reason else None
    return [
        {
            "record": ring.record,
            "open": bool(ring.flags & outline.OPEN),
            "points": ring.points,
            "box": ring.box,
            "due": None if ring.due is None else outline.DUE[ring.due],
            "done": ring.due in (None, outline.DONE),
            "present": ring.present,
            "cut_from": ring.cut_from,
            "said": told(ring),
        }
        for ring in rings
    ]


class Tab:
    """A tab's own work space, the jobs that are laid in it, the rings that the steps began with, and how many steps there were; these three of each kept state, too."""

    def __init__(self):
        self.lock = threading.Lock()
        self.work, self.jobs, self.begun, self.steps, self.kept = None, (), [], 0, {}

    def opened(self):
        if self.work is None:
            raise Bad("nothing is opened in this tab: open the drawing again")
        return self.work

    def open(self, data):
        self.work, self.jobs, self.steps, self.kept = outline.Work(data), (data,), 0, {}
        self.begun = rings_of(self.work.rings())

    def step(self, record, until_done=False):
        work = self.opened()
        work.step(record)
        self.steps += 1
        while until_done and not work.is_done(record):
            work.step(record)
            self.steps += 1

    def finish(self):
        """Every ring to its end, records rising."""
        work, record = self.opened(), 0
        while record < work.counts()[1]:
            if not work.is_done(record):
                self.step(record, True)
            record += 1

    def keep(self, name):
        self.opened().keep(name)
        self.kept[name] = self.steps, self.jobs, self.begun

    def go_back(self, name):
        self.opened().go_back(name)
        self.steps, self.jobs, self.begun = self.kept[name]

    def drop(self, name):
        self.opened().drop(name)
        del self.kept[name]

    def lay(self, data):
        self.opened().lay_together(outline.Work(data))
        self.jobs += (data,)
        self.begun = rings_of(self.work.rings())

    def state(self):
        """What the page shows of the work space."""
        work = self.opened()
        points, records = work.counts()
        kept = {chr(name): {"rings": rings_of(work.kept(name)), "steps": self.kept[name][0]} for name in work.names() if name is not None}
        answer = {"rings": rings_of(work.rings()), "begun": self.begun, "kept": kept, "steps": self.steps, "drawings": len(self.jobs), "points": points, "records": records, "done": work.all_done()}
        if answer["done"]:
            answer.update(finished(work))
            answer["same"] = self.same(work)
        return answer

    def same(self, work):
        """Whether the steps gave just the paths that each job gives when it is finished in one call, whatever their order; none if one is refused then."""
        try:
            alone = [path for data in self.jobs for path in outline.finish(data)]
        except outline.Refused:
            return None
        return sorted(alone) == sorted(work.write())


def name_of(asked):
    if asked["name"] not in tuple(NAMES):
        raise Bad(f"a name is one of {', '.join(NAMES)}")
    return ord(asked["name"])


# What each call does to a tab; then its state is the answer.
STEPS = {
    "open": lambda tab, asked, data: tab.open(data),
    "step": lambda tab, asked, data: tab.step(int(asked["record"])),
    "end": lambda tab, asked, data: tab.step(int(asked["record"]), True),
    "finish": lambda tab, asked, data: tab.finish(),
    "keep": lambda tab, asked, data: tab.keep(name_of(asked)),
    "go_back": lambda tab, asked, data: tab.go_back(name_of(asked)),
    "drop": lambda tab, asked, data: tab.drop(name_of(asked)),
    "lay": lambda tab, asked, data: tab.lay(data),
}


class Table:
    """All tabs, and what the page begins with."""

    def __init__(self, text=None):
        self.text, self.tabs, self.lock = text, collections.OrderedDict(), threading.Lock()

    def tab(self, name):
        """A tab by the name that its page has chosen."""
        if not re.fullmatch(r"[0-9a-f-]{8,40}", name):
            raise ValueError("no tab's name")
        with self.lock:
            tab = self.tabs.pop(name, None) or Tab()
            self.tabs[name] = tab
            if len(self.tabs) > TABS:
                self.tabs.popitem(last=False)
            return tab

    def begin(self):
        samples = {}
        for name in sorted(glob.glob(os.path.join(TREE, "samples", "*.txt"))):
            with open(name, encoding="utf-8") as file:
                samples[os.path.basename(name)[:-4]] = file.read()
        return {"text": self.text, "samples": samples, "calls": {name: outline.has(name) for name in ("lay_together", "contained", "mend", "records_in")}}

    def call(self, asked):
        """The answer to a call: {"answer": ..}, {"refused": ..} or {"bad": words}."""
        call, data = asked["call"], None
        tab = self.tab(asked["tab"])
        try:
            if call == "begin":
                return {"answer": self.begin()}
            if call in ("draw", "mend", "open", "lay"):
                data = given(asked)
            if call in ("draw", "mend"):
                return {"answer": drawn(outline.mend(data) if call == "mend" else data, int(asked["rate"]))}
            with tab.lock:
                if call == "window":
                    return {"answer": {"records": tab.opened().records_in(*(int(asked[side]) for side in ("left", "top", "right", "bottom")))}}
                STEPS[call](tab, asked, data)
                return {"answer": tab.state()}
        except outline.Refused as refused:
            with tab.lock:
                state = tab.state() if tab.work else None
            return {"refused": refusal(refused, data), "state": state}
        except (Bad, NotImplementedError) as bad:
            return {"bad": str(bad)}

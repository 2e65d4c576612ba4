"""tools/table by HTTP alone: what is refused, what a tab's calls answer, that a second tab does not disturb the first, and that nothing is written. Called by tests/table."""
import base64
import http.client
import json
import os
import re
import subprocess
import sys

sys.dont_write_bytecode = True
sys.path[:0] = ["examples/python", "tools"]
import job as fields
import outline

OTHERS = ("/x", "/../tools/job.py", "/table.html", "/tools/job.py", "/main.js?x", "/call", "/favicon.ico")


class Table:
    """The program, on a free port, until the end."""

    def __init__(self, *words):
        self.ran = subprocess.Popen(["tools/table", "--no-browser", *words], stdout=subprocess.PIPE, text=True)
        self.host = re.fullmatch(r"table: http://([0-9.:]+)/ \(Ctrl-C ends it\)\n", self.ran.stdout.readline())[1]
        assert self.host.startswith("127.0.0.1:"), self.host

    def ask(self, method, path, body=None, **headers):
        """Status, headers and body of an answer."""
        line = http.client.HTTPConnection(self.host, timeout=30)
        line.request(method, path, body, {name.replace("_", "-"): value for name, value in headers.items()})
        answer = line.getresponse()
        data = answer.read()
        line.close()
        return answer.status, answer, data

    def call(self, call, tab="0000000a", **more):
        status, _, data = self.ask("POST", "/call", json.dumps({"tab": tab, "call": call, **more}), Content_Type="application/json")
        return json.loads(data) if status == 200 else status

    def end(self):
        self.ran.terminate()
        self.ran.wait(10)


def refuses(table):
    """Another Host, another Origin, another path, another method, a long body, no JSON."""
    good = json.dumps({"tab": "0000000a", "call": "begin"})
    kind = {"Content_Type": "application/json"}
    status, answer, page = table.ask("GET", "/")
    assert status == 200 and b"<title>The table</title>" in page and "default-src 'none'" in answer.headers["Content-Security-Policy"]
    for name in re.findall(rb'(?:src|href)="(/[^"]*)"', page) + [b"/sheet.js", b"/scene.js", b"/panel.js", b"/hands.js", b"/steps.js", b"/talk.js", b"/windows.js", b"/drawing.js"]:
        assert table.ask("GET", name.decode())[0] == 200, name
    for path in OTHERS:
        assert table.ask("GET", path)[0] == 404, path
    assert table.ask("POST", "/call", good, **kind)[0] == 200
    for host in ("localhost", "evil.example", table.host.split(":")[0], f"evil.example:{table.host.split(':')[1]}", ""):
        assert table.ask("GET", "/", Host=host)[0] == 403, host
        assert table.ask("POST", "/call", good, Host=host, **kind)[0] == 403, host
    for origin in ("http://evil.example", "null", f"https://{table.host}"):
        assert table.ask("POST", "/call", good, Origin=origin, **kind)[0] == 403, origin
    assert table.ask("POST", "/call", good, Origin=f"http://{table.host}", **kind)[0] == 200
    assert table.ask("POST", "/", good, **kind)[0] == 404
    assert table.ask("POST", "/call", good, Content_Type="text/plain")[0] == 415
    assert table.ask("POST", "/call", "x", Content_Length="1000001", **kind)[0] == 413
    assert table.ask("POST", "/call", "", Content_Length="-1", **kind)[0] == 411
    for body in ("", "{", "[]", "7", "{}", '{"call": "begin"}', '{"call": "begin", "tab": "../x"}', '{"call": "none", "tab": "0000000a"}', '{"call": "step", "tab": 7}', "[" * 100000):
        assert table.ask("POST", "/call", body, **kind)[0] == 400, body[:40]
    for method in ("PUT", "DELETE", "OPTIONS", "TRACE"):
        assert table.ask(method, "/")[0] == 501, method
    print("table: another Host, Origin, path or method, a long body and what is no call are refused")


def answers(table):
    """Each sample is answered as the library answers; refusals come with what to do."""
    begun = table.call("begin")["answer"]
    for name, text in begun["samples"].items():
        data = fields.from_text(text).bytes()
        drawn = table.call("draw", text=text, rate=250)["answer"]
        again = table.call("draw", fields=drawn["fields"], rate=250)["answer"]
        assert again == drawn == table.call("draw", file=base64.b64encode(data).decode(), rate=250)["answer"], name
        assert base64.b64decode(drawn["file"]) == data and fields.from_text(drawn["text"]).bytes() == data, name
        if name == "refused":
            assert drawn["listing"] == "refused 7\n" and drawn["refused"]["word"] == "muddled" and "point 2" in drawn["refused"]["where"] and drawn["refused"]["advice"], drawn["refused"]
            continue
        assert drawn["listing"] == outline.listing(data, 250) and drawn["refused"] is None, name
        assert [list(map(tuple, path["points"])) for path in drawn["paths"]] == [path.points for path in outline.finish(data)], name
        assert [path["word"] for path in drawn["paths"]] == [line.split()[0] for line in drawn["listing"].splitlines()[1:-1]], name
        assert [path["area"] for path in drawn["paths"] if path["word"] != "line"] == [int(line.split()[2]) for line in drawn["listing"].splitlines()[1:-1] if line[:4] != "line"], name
        assert [reason["said"] for reason in drawn["reasons"]] == [str(reason) for reason in outline.Work(data, finished=True).reasons()], name
        flipped = table.call("draw", fields={**drawn["fields"], "settings": 2}, rate=0)["answer"]
        assert [path["word"] for path in flipped["paths"]] == [line.split()[0] for line in flipped["listing"].splitlines()[1:]], name
    assert table.call("draw", text="settings 0\nring 0 - 0,0 1.5,2", rate=0)["bad"].startswith("line 2: not a whole number"), "a bad line"
    assert "advice" in table.call("draw", text="settings 0", rate=1001)["answer"]["refused"], "a bad rate"
    assert "bad" in table.call("draw", fields={"settings": 0, "points": [[2**31, 0, 0, 0, 0, 0]], "records": [], "segments": [], "joins": [], "tail": ""}, rate=0)
    import table_calls
    assert set(table_calls.ADVICE) >= set(outline.refusals()) and not any("`" in words or "](" in words for words in table_calls.ADVICE.values()), table_calls.ADVICE
    print(f"table: {len(begun['samples'])} samples answered as the library answers, as text, fields and file; every refusal with what to do")


def tabs(table):
    """Two tabs step two drawings; each has its own work space, and its own kept states."""
    crossed, plate = (open(f"samples/{name}.txt").read() for name in ("crossed", "plate"))
    assert table.call("step", record=0)["bad"].startswith("nothing is opened")
    first = table.call("open", text=crossed)["answer"]
    table.call("open", tab="0000000b", text=plate)
    table.call("keep", name="A")
    assert table.call("go_back", tab="0000000b", name="A")["refused"]["number"] == 14
    table.call("step", record=0)
    other = table.call("finish", tab="0000000b")["answer"]
    assert other["done"] and other["same"] is True and not other["kept"], other
    mine = table.call("finish")["answer"]
    assert mine["done"] and mine["same"] is True and mine["steps"] == 13 and list(mine["kept"]) == ["A"], mine
    assert table.call("step", record=0)["refused"]["number"] == 12
    assert table.call("step", record=0)["state"] == mine
    assert table.call("go_back", name="A")["answer"]["rings"] == first["rings"]
    assert "A" not in table.call("drop", name="A")["answer"]["kept"]
    assert "bad" in table.call("keep", name="E")
    for number in range(40):
        table.call("open", tab=f"000000{number:02}", text=crossed)
    assert table.call("finish", tab="0000000b")["bad"].startswith("nothing is opened"), "the oldest of many tabs has gone"
    print("table: a tab does not disturb another; the oldest of many is let go")


def laid(table):
    if not outline.has("lay_together"):
        return
    lost, plate = (open(f"samples/{name}.txt").read() for name in ("lost", "plate"))
    table.call("open", text=lost)
    table.call("keep", name="B")
    both = table.call("lay", text=plate)["answer"]
    assert both["drawings"] == 2 and len(both["rings"]) == 9, both
    done = table.call("finish")["answer"]
    assert done["same"] is True and len(done["paths"]) == 6, done
    assert table.call("lay", text=plate)["refused"]["number"] == 12
    alone = table.call("go_back", name="B")["answer"]
    assert alone["drawings"] == 1 and len(alone["begun"]) == 4, alone
    assert table.call("finish")["answer"]["same"] is True
    print("table: a second drawing is laid on, and gone back from")


def windows(table):
    if not outline.has("records_in"):
        return
    sides = ("left", "top", "right", "bottom")
    window = lambda *of, **more: table.call("window", **dict(zip(sides, of)), **more)
    ends = -(2**31), 2**31 - 1
    table.call("open", text=open("samples/plate.txt").read())
    work = outline.Work(fields.from_text(open("samples/plate.txt").read()).bytes())
    for at in range(2):
        every = [ring.record for ring in work.rings() if ring.points]
        assert window(ends[0], ends[0], ends[1], ends[1])["answer"]["records"] == every, every
        for ring in work.rings():
            for of in ((*ring.box[:2], *ring.box[:2]), (ring.box[2], ring.box[3], ends[1], ends[1]), (ring.box[2] + 1, ring.box[1], ring.box[0], ring.box[3])) if ring.points else ():
                assert window(*of)["answer"]["records"] == work.records_in(*of), of
        table.call("finish"), work.finish()
    assert window(ends[1] + 1, 0, 0, 0) == 400 and table.call("window", left=0) == 400
    assert window(0, 0, 0, 0, tab="0000000c")["bad"].startswith("nothing is opened")
    print("table: a window shows the records that the library says")


def mended(table):
    if not outline.has("mend"):
        return
    drawn = table.call("draw", text=open("samples/hole.txt").read(), rate=0)["answer"]
    broken = {**drawn["fields"], "points": [[x, y, after, 0, record, z] for x, y, after, _, record, z in drawn["fields"]["points"]]}
    assert table.call("draw", fields=broken, rate=0)["answer"]["refused"]["number"] == 6
    assert table.call("mend", fields=broken, rate=0)["answer"] == drawn
    print("table: backward links are mended")


def files():
    return {os.path.join(folder, name) for folder, _, names in os.walk(".") for name in names if ".git" not in folder.split(os.sep)}


if __name__ == "__main__":
    before, table = files(), Table()
    try:
        for part in (refuses, answers, tabs, laid, windows, mended):
            part(table)
    finally:
        table.end()
    assert files() == before, files() ^ before

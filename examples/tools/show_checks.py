"""What tools/show writes: texts for a terminal that were written by hand, and pages that are read again. Each check is a name,
what is wanted, and what was found."""
import json
import os
import re
import stat
import subprocess
from unittest import mock

from calls import EXAMPLES, TOOLS, call, command, folder_of
from shown_page import Page

from replies import faults
from replies.command import main

HERE = os.path.dirname(os.path.abspath(__file__))
SHOP, GUIDE = os.path.join(EXAMPLES, "shop"), os.path.join(os.path.dirname(EXAMPLES), "docs", "guide.md")

# Values of data that mean something in HTML or in a terminal, each with what is to be read on the page.
NASTY = {
    "<script>alert(1)</script>": "<script>alert(1)</script>", '"><img src=x onerror=alert(1)>': '"\"><img src=x onerror=alert(1)>"',
    "' onmouseover='alert(1)": "' onmouseover='alert(1)", "</style></title></section>": "</style></title></section>",
    "&lt;b&gt; &amp; &#60;": "&lt;b&gt; &amp; &#60;", "<!-- ": '"<!-- "', "]]>": "]]>", "": '""', "  ": '"  "', "(no value)": '"(no value)"',
    "\u202eabc": "\\u202eabc", "\x00\x1b[2J\n": "\\u0000\\u001b[2J\\u000a", "שלום": "שלום", "\ud800": "\\ud800", "x" * 40000: "x" * 40000,
}

# Dates as the values of buckets, and whether they are those of a range: by equal steps of time, or by months.
DATES = [
    (["2024-02-29T23:00:00.000Z", "2024-03-01T00:00:00.000Z", "2024-03-01T01:00:00.000Z"], True),
    (["2024-02-29T23:00:00.000Z", "2024-03-01T00:00:00.000Z", "2024-03-01T01:00:00.001Z"], False),
    (["2024-03-01T01:00:00.000Z", "2024-03-01T00:00:00.000Z", "2024-02-29T23:00:00.000Z"], False),
    (["2023-12-31T00:00:00.000Z", "2024-01-31T00:00:00.000Z", "2024-02-29T00:00:00.000Z", "2024-03-29T00:00:00.000Z"], True),
    (["2024-01-29T00:00:00.000Z", "2024-02-29T00:00:00.000Z", "2024-03-31T00:00:00.000Z"], True),
    (["2024-01-28T00:00:00.000Z", "2024-02-28T00:00:00.000Z", "2024-03-31T00:00:00.000Z"], False),
    (["2024-01-01T00:00:00.000Z", "2024-02-01T00:00:00.000Z", "2024-03-01T09:00:00.000Z"], False),
    (["2024-01-01T00:00:00.000Z", "2024-02-01T00:00:00.000Z", "2024-04-01T00:00:00.000Z"], False),
    (["2024-02-29T00:00:00.000Z", "2025-02-28T00:00:00.000Z", "2026-02-28T00:00:00.000Z", "2028-02-28T00:00:00.000Z"], False),
    (["2024-02-29T00:00:00.000Z", "2025-02-28T00:00:00.000Z", "2026-02-28T00:00:00.000Z", "2027-02-28T00:00:00.000Z"], True),
    (["0001-01-01T00:00:00.000Z", "0002-01-01T00:00:00.000Z", "0003-01-01T00:00:00.000Z"], True),
    (["2024-01-01T00:00:00Z", "2024-01-02T00:00:00Z", "2024-01-03T00:00:00Z"], False),
    (["2024-01-01T00:00:00.0Z", "2024-01-02T00:00:00.0Z", "2024-01-03T00:00:00.0Z"], False),
    (["2023-02-28T00:00:00.000Z", "2023-02-29T00:00:00.000Z"], False), (["2024-01-01T00:00:00.000Z", 7], False),
    (["2024-01-01T00:00:00.000Z"], False),
]

# A line, what is said of it behind its number.
WRONG = [
    ("", "no JSON"), ("{", "no JSON"), ("7", "no JSON object"), ("[" * 100000, "no JSON"), ('{"facets":{"count":1}}', "session is missing"),
    ('{"facets":{"count":1},"session":7,"generations":[]}', "session is no text"),
    ('{"facets":{"count":1},"session":"s","generations":[1.0]}', "generations is not the list that it is to be"),
    ('{"session":"s","generations":[]}', "facets is missing"), ('{"facets":[],"session":"s","generations":[]}', "a bucket is no object"),
    ('{"facets":{},"session":"s","generations":[]}', "count is missing"),
    ('{"facets":{"count":true},"session":"s","generations":[]}', "count is no whole number"),
    ('{"facets":{"count":1,"f":"x"},"session":"s","generations":[]}', "f is neither a number nor an object"),
    ('{"facets":{"count":1,"f":{}},"session":"s","generations":[]}', "buckets is missing"),
    ('{"facets":{"count":1,"f":{"buckets":[7]}},"session":"s","generations":[]}', "buckets is not the list that it is to be"),
    ('{"facets":{"count":1,"f":{"buckets":[{"count":1}]}},"session":"s","generations":[]}', "val is missing"),
    ('{"facets":{"count":1,"f":{"buckets":[{"count":1,"val":1.5}]}},"session":"s","generations":[]}',
     "val is neither a text nor a whole number"),
    ('{"facets":{"count":1,"f":{"buckets":[],"more":{"count":1}}},"session":"s","generations":[]}', "more stands beside the buckets of f"),
    ('{"facets":{"count":1,"f":{"buckets":[],"numBuckets":{"count":1}}},"session":"s","generations":[]}', "numBuckets is no whole number"),
    ('{"error":7,"facet":[],"number":1,"session":"s"}', "error is no text"),
    ('{"error":"x","facet":[7],"number":1,"session":"s"}', "facet is not the list that it is to be"),
    ('{"error":"x","line":"1","number":1}', "line is no whole number"),
    ('{"search":0,"sent":[[1,0]]}', "sent is not the list that it is to be"), ('{"sent":[]}', "search is missing"),
]


def check():
    yield from in_terminals()
    yield from of_faults()
    yield from of_the_shop()
    yield from of_nasty_values()
    yield from of_many_buckets()
    yield from of_dates()
    yield from of_wrong_lines()


def stored(name):
    with open(os.path.join(HERE, name), encoding="utf-8") as file:
        return file.read()


def bucket(count, value=None, **more):
    return {"count": count, **more, **({} if value is None else {"val": value})}


def reply(**facets):
    return {"facets": {"count": 100, **facets}, "generations": [1, 2], "session": "main"}


def page_of(lines):
    """The page of some lines, each a text or what it says as JSON."""
    text = "".join((one if isinstance(one, str) else json.dumps(one)) + "\n" for one in lines)
    with folder_of({"r.jsonl": text}) as folder:
        done = call(main, ["--html", "page.html", "r.jsonl"], folder)
        if done != (0, "", ""):
            return Page(f"<p class='wrong'>{done}</b>")
        with open(os.path.join(folder, "page.html"), encoding="utf-8") as file:
            return Page(file.read())


def in_terminals():
    for columns, encoding in ((80, "utf-8"), (40, "ascii"), (20, "utf-8")):
        with mock.patch.dict(os.environ, {"COLUMNS": str(columns), "PYTHONIOENCODING": encoding}):
            found = command("show", ["shown.jsonl"], HERE)
        yield f"replies in {columns} columns, {encoding}", (0, stored(f"shown-{columns}.txt"), ""), found
    with mock.patch.dict(os.environ, {"COLUMNS": "80"}):
        with open(os.path.join(HERE, "shown.jsonl"), "rb") as file:
            yield "replies from standard input", (0, stored("shown-80.txt"), ""), call(main, [], HERE, file.read())
    yield "no replies", (0, "no replies: the script had no search\n", ""), call(main, [], HERE)
    fault = b'{"detail":"long-term","error":"bad-document","line":9,"number":6}\n'
    text = "the script has a fault in line 9\n  bad-document (6)\n" \
           "  the document is not as the schema has it: a text has more than 32,766 bytes\n"
    with mock.patch.dict(os.environ, {"COLUMNS": "80"}):
        yield "the fault of a script", (0, text, ""), call(main, [], HERE, fault)
    sent = b'{"search":7,"sent":[[1,0,118],[1,1,1118],[2,1,85],[3,0,43]]}\n'
    text = "search 7: 1,364 bytes sent\n  round  shards  bytes  most by one\n      1       2  1,236        1,118\n" \
           "      2       1     85           85\n      3       1     43           43\n"
    yield "what was sent for a search", (0, text, ""), call(main, [], HERE, sent)
    page = page_of([sent.decode().strip(), {"search": 0, "sent": []}])
    yield "the same on a page", ([], True, True), (page.wrong, "1,236" in page.texts, "Search 0: what was sent" in page.texts)
    for is_plain, wanted in ((False, "\x1b[1mthe script has a fault in line 9\x1b[0m"), (True, "the script has a fault in line 9")):
        yield f"a terminal, {'without' if is_plain else 'with'} bold", (0, wanted), in_a_terminal(fault, {"NO_COLOR": "1"} if is_plain else {})
    with open("/dev/full", "wb") as device:
        done = subprocess.run([os.path.join(TOOLS, "show"), "shown.jsonl"], cwd=HERE, stdout=device, stderr=subprocess.PIPE)
        yield "standard output that is full", (73, b"show: writing failed: No space left on device\n"), (done.returncode, done.stderr)
    yield "no file", (66, "", "show: none: No such file or directory\n"), call(main, ["none"], HERE)
    for nasty in NASTY:
        status, text, _ = call(main, [], HERE, json.dumps(reply(**{"f" + nasty: {"buckets": [bucket(1, nasty)]}})).encode("utf-8"))
        strange = [one for one in text.replace("\n", "") if ord(one) < 32 or 127 <= ord(one) < 160 or one in "\u202e\ud800"]
        yield f"the value {nasty[:20]!r} in a terminal", (0, 3, []), (status, text.count("\n"), strange)


def in_a_terminal(line, more):
    """The status and the first line that is written."""
    reading, writing = os.openpty()
    try:
        environment = {name: value for name, value in os.environ.items() if name != "NO_COLOR"}
        done = subprocess.run([os.path.join(TOOLS, "show")], input=line, stdout=writing, env={**environment, **more})
        return done.returncode, os.read(reading, 4096).decode("utf-8").split("\r\n")[0]
    finally:
        os.close(reading)
        os.close(writing)


def of_faults():
    """Each fault and each detail of the guide has words, and no other."""
    with open(GUIDE, encoding="utf-8") as file:
        text = file.read()
    for title, known in (("## Faults of scripts", faults.SCRIPT), ("## Faults of requests", faults.REQUEST)):
        part = text.split(title + "\n", 1)[1].split("\n## ", 1)[0]
        yield title[3:], sorted(set(re.findall(r"^\| \d+ \| `([\w-]+)` \|", part, re.M))), sorted(known)
    details = text.split("<!-- details", 1)[1].split("\n## ", 1)[0]
    yield "details of bad documents", sorted(re.findall(r"^\| `([\w-]+)` \|", details, re.M)), sorted(faults.DETAILS)
    page = page_of([{"error": "bad-value", "facet": ["a", "<b>"], "number": 6, "session": "s"},
                    {"detail": "no-id", "error": "bad-document", "line": 3, "number": 6}])
    yield "faults on a page", ([], ["a", "<b>", "s"]), (page.wrong, page.names)
    for words in (faults.REQUEST["bad-value"], f"{faults.SCRIPT['bad-document']}: {faults.DETAILS['no-id']}"):
        yield f"in words: {words}", True, words in page.texts


def of_the_shop():
    """Every name, value and count of the shop's page, as its replies have them."""
    with open(os.path.join(SHOP, "page.replies.jsonl"), encoding="utf-8") as file:
        lines = file.read().splitlines()
    page = page_of(lines)
    names, counts = [], []
    for line in map(json.loads, lines):
        names += [line["session"], *(line["facet"] if "error" in line else walk(line["facets"], counts))]
    yield "the shop's page is well formed", [], page.wrong
    yield "its names and values", sorted(names), sorted(page.names)
    yield "its counts", sorted(counts), sorted(int(row["count"].replace(",", "")) for row in page.rows)
    yield "its histograms and what unfolds", (1, 9), (page.elements.count("svg"), page.elements.count("details"))
    # The brands of the first reply: 4, 4 and 3 products, each bar a share of the greatest.
    brands = [("acme", 100), ("zen", 100), ("orb", 75)]
    yield "bars in proportion", brands, [(row["label"], row["share"]) for row in page.rows[:3]]


def walk(one, counts):
    """The names and values under a bucket; its facets' counts are added to `counts`."""
    for name, held in one.items():
        if name not in ("count", "val"):
            yield name
            if isinstance(held, dict) and "count" in held:
                yield from walk(held, counts)
            elif isinstance(held, dict):
                for inner in [*held["buckets"], *(bucket for other, bucket in held.items() if other != "buckets")]:
                    counts.append(inner["count"])
                    yield from [str(inner["val"])] if "val" in inner else []
                    yield from walk(inner, counts)


def of_nasty_values():
    for nasty, shown in NASTY.items():
        facet = {"buckets": [bucket(1, nasty, **{nasty + " ": 7})]}
        lines = [reply(**{nasty + ".": facet, nasty + ",": 5}), {**reply(), "session": nasty},
                 {"error": nasty, "facet": [nasty], "number": 6, "session": "s"}, {"detail": nasty, "error": nasty, "line": 1, "number": 1}]
        page = page_of(lines)
        yield f"a page with {nasty[:20]!r}", [], page.wrong
        yield f"{nasty[:20]!r} as it is read", 3, page.names.count(shown)


def of_many_buckets():
    """Nothing, thirteen and 10,000 buckets, as a range beside fewer values, and as deep as facets may stand in each other."""
    for many, fewer in ((0, 0), (13, 13), (10000, 100)):
        values = {"buckets": [bucket(many - i, f"v{i}") for i in range(fewer)]}
        steps = {"buckets": [bucket(i % 7, 5 * i) for i in range(many)], "before": bucket(3), "after": bucket(0), "between": bucket(9)}
        page = page_of([reply(values=values, steps=steps)])
        yield f"a page of {many:,} buckets", [], page.wrong
        yield f"rows of {many:,} buckets", many + fewer + 3, len(page.rows)
        yield f"nothing of {many:,} buckets", 2 * (many == 0), page.texts.count("no buckets")
        yield f"bars of {many:,} buckets in the histogram", {0: 0, 13: 13, 10000: 120}[many], page.elements.count("rect")
    steps = [bucket(1, 0), bucket(2, 5), bucket(3, 10)]
    page = page_of([reply(a={"buckets": steps, "numBuckets": 1234567}, b={"buckets": [], "numBuckets": 1}, numBuckets={"buckets": steps})])
    told = [text for text in page.texts if text.endswith(("bucket", "buckets"))]
    yield "how many buckets there are in all", ([], ["3 of 1,234,567 buckets", "0 of 1 bucket"], 1), (page.wrong, told, page.elements.count("svg"))
    deep = {"low": 5}
    for i in range(8):
        deep = {f"f{i}": {"buckets": [bucket(1, f"v{i}", **deep)]}}
    page = page_of([reply(**deep)])
    yield "eight facets in each other", ([], 7), (page.wrong, page.elements.count("details"))


def of_dates():
    for dates, is_range in DATES:
        facet = {"buckets": [bucket(i, one) for i, one in enumerate(dates)]}
        page = page_of([reply(dates=facet, other={**facet, "missing": bucket(1)})])
        yield f"a page of the dates {dates}", ([], is_range), (page.wrong, page.elements.count("svg") == 1)
        yield f"bars of the dates {dates}", len(dates) * is_range, page.elements.count("rect")


def of_wrong_lines():
    right = json.dumps(reply()) + "\n"
    for line, told in WRONG:
        with folder_of({"r.jsonl": right + line + "\n" + right, "page.html": "old"}) as folder:
            said = f"show: r.jsonl, line 2: no line that the program writes: {told}\n"
            yield f"the line {line[:60]}", (65, "", said), call(main, ["r.jsonl"], folder)
            yield f"the line {line[:60]} for a page", (65, "", said), call(main, ["--html", "page.html", "r.jsonl"], folder)
            with open(os.path.join(folder, "page.html"), encoding="utf-8") as file:
                yield "nothing half written", ("old", ["page.html", "r.jsonl"]), (file.read(), sorted(os.listdir(folder)))
    with folder_of({"r.jsonl": right.encode("utf-8") + b"\xff\n"}) as folder:
        yield "bytes that are not UTF-8", (65, "", "show: r.jsonl, line 2: not UTF-8\n"), call(main, ["r.jsonl"], folder)
        told = "show: writing failed: No such file or directory\n"
        yield "a page in no folder", (73, "", told), call(main, ["--html", "none/page.html", "r.jsonl"], folder)
        yield "a page that is a folder", 73, call(main, ["--html", ".", "r.jsonl"], folder)[0]
    with folder_of({"r.jsonl": right, "old.html": ""}) as folder:
        os.chmod(os.path.join(folder, "old.html"), 0o604)
        call(main, ["--html", "old.html", "r.jsonl"], folder)
        yield "the mode of a page", 0o604, stat.S_IMODE(os.stat(os.path.join(folder, "old.html")).st_mode)

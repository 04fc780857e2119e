#!/usr/bin/env python3
"""Measures the program on generated documents, and prints the figures beside the targets."""
import argparse
import collections
import json
import os
import subprocess
import sys
import tempfile

TOP = os.path.dirname(os.path.dirname(os.path.abspath(__file__)))
sys.path.insert(0, os.path.join(TOP, "examples"))
import counting  # noqa: E402

FIELDS = {"brand": "string", "price": "plong", "tags": "strings"}
CONDITIONS = {
    "*:*": lambda d: True,
    "tags:t1": lambda d: "t1" in d["tags"],
    "price:[500 TO *]": lambda d: any(price >= 500 for price in d["price"]),
    **{f"-price:{n}": lambda d, n=n: n not in d["price"] for n in range(10)},
}
ALL = {"limit": -1, "sort": "index"}
# What is searched: by a name, the request.
REQUESTS = {
    "count": {"query": "price:[500 TO *]"},
    "brands": {"facet": {"brand": {"type": "terms", "field": "brand", **ALL}}},
    "tags": {"facet": {"tags": {"type": "terms", "field": "tags", **ALL}}},
    "three brands": {"facet": {"brand": {"type": "terms", "field": "brand", "limit": 3, "refine": True,
                                         "sort": "total desc", "facet": {"total": "sum(price)"}}}},
    "prices": {"facet": {"price": {"type": "range", "field": "price", "start": 0, "end": 1000, "gap": 100,
                                   "facet": {"brand": {"type": "terms", "field": "brand", "limit": 2, "refine": True}}}}},
    "a page": {"filter": ["{!tag=T}tags:t1", "price:[500 TO *]"],
               "facet": {"tags": {"type": "terms", "field": "tags", "domain": {"excludeTags": "T"}},
                         "brand": {"type": "terms", "field": "brand", "missing": True}, "total": "sum(price)"}},
    "ten filters": {"filter": [f"-price:{n}" for n in range(10)],
                    "facet": {"brand": {"type": "terms", "field": "brand", **ALL}}},
    "brands in each price": {"facet": {"price": {"type": "terms", "field": "price", **ALL,
                                                 "facet": {"brand": {"type": "terms", "field": "brand", **ALL}}}}},
}
# Of a run: seconds of processors, the most bytes of memory, seconds of the clock.
Cost = collections.namedtuple("Cost", "seconds peak wall", defaults=[0.0])


# Tags inside the values of another field, beside a filter by a tag: by a name the field, whether the tags leave the filter out,
# and below which number a document counts, where that is asked.
Inside = collections.namedtuple("Inside", "field leaves_out below", defaults=(False, None))
INSIDE = {
    "13 brands": Inside("brand"),
    "13 brands, left out": Inside("brand", True),
    "1,000 prices": Inside("price"),
    "1,000 prices, left out": Inside("price", True),
    "1,000 numbers, left out": Inside("number", True, 1000),
    "2,000 numbers, left out": Inside("number", True, 2000),
}
# Of which one takes how many times another at most.
RATIOS = [("13 brands, left out", "13 brands", 3), ("1,000 prices, left out", "1,000 prices", 4),
          ("2,000 numbers, left out", "1,000 numbers, left out", 2.2)]


def request_inside(asked):
    tags, around = ({"type": "terms", "field": field, **ALL} for field in ("tags", asked.field))
    if asked.leaves_out:
        tags["domain"] = {"excludeTags": "T"}
    if asked.below:
        around["domain"] = {"filter": f"number:[0 TO {asked.below - 1}]"}
    return {"filter": "{!tag=T}tags:t1", "facet": {"around": {**around, "facet": {"tags": tags}}}}


def reply_inside(asked, count, every):
    """The line of such a search, counted in one pass over the documents."""
    root, found, tags = 0, collections.Counter(), collections.defaultdict(collections.Counter)
    for made in map(numbered, range(count)):
        is_found, value = "t1" in made["tags"], made[asked.field]
        root += is_found
        if not asked.below or made["number"] < asked.below:
            found[value] += is_found
            tags[value].update(set(made["tags"]) if is_found or asked.leaves_out else ())
    buckets = [{"count": found[value], "tags": {"buckets": counts(tags[value])}, "val": value} for value in sorted(found) if found[value]]
    facets = {"around": {"buckets": buckets}, "count": root}
    return (counting.ordered({"facets": facets, "generations": [count // every + 1] * 4, "session": "demo"}) + "\n").encode("utf-8")


def counts(counter):
    return [{"count": counter[value], "val": value} for value in sorted(counter)]


def document(i):
    return {"id": f"d{i}", "brand": f"b{7 * i % 13}", "price": 31 * i % 1000, "tags": [f"t{i % 5}", f"t{i % 3}"]}


def numbered(i):
    return {**document(i), "number": 31 * i % 2000}


def script_lines(count, shards, every, fields=FIELDS, made=document):
    """Documents dealt out to the shards, with a commit at the end, and behind each `every` of them where that is a number."""
    yield {"schema": {"shards": shards, "fields": fields}}
    for i in range(count):
        yield {"add": {"shard": i % shards, "doc": made(i)}}
        if every and (i + 1) % every == 0:
            yield {"commit": {}}
    yield {"commit": {}}
    yield {"sync": {}}


def search(request):
    return {"search": {"session": "demo", "request": request}}


# Starts the program from a small process, since a process that is started counts the memory of the one that started it as
# its own until then; and tells the status, the seconds, the most kilobytes and the seconds of the clock.
LAUNCHER = """import json, os, sys, time
began = time.monotonic()
child = os.posix_spawn(sys.argv[1], sys.argv[1:], os.environ)
_, status, used = os.wait4(child, 0)
took = time.monotonic() - began
print(json.dumps([os.waitstatus_to_exitcode(status), used.ru_utime + used.ru_stime, used.ru_maxrss, took]), file=sys.stderr)
"""


def run_once(program, path, words=()):
    """What one run costs: its processor time is user and system; and its output."""
    with open(path, "rb") as script, tempfile.TemporaryFile() as output:
        launched = subprocess.run([sys.executable, "-c", LAUNCHER, program, *words], stdin=script, stdout=output,
                                  stderr=subprocess.PIPE, check=True)
        status, seconds, peak, wall = json.loads(launched.stderr.splitlines()[-1])
        if status != 0:
            sys.exit(f"the program ended with status {status}")
        output.seek(0)
        return Cost(seconds, peak * 1024, wall), output.read()


class Case:
    """A script with so many searches of one request, and the least that runs of it took."""

    def __init__(self, folder, opening, request, searches, reply):
        self.path = os.path.join(folder, f"{len(os.listdir(folder))}")
        with open(self.path, "wb") as file:
            file.write(opening)
            for _ in range(searches):
                file.write(json.dumps(search(request)).encode("utf-8") + b"\n")
        self.size, self.output, self.least = os.path.getsize(self.path), reply * searches, None

    def run(self, program):
        cost, output = run_once(program, self.path)
        if output != self.output:
            sys.exit("a reply is wrong")
        self.least = Cost(*map(min, zip(cost, self.least or cost)))


def opening(count, shards, every, **documents):
    lines = script_lines(count, shards, every, **documents)
    return "".join(json.dumps(line, separators=(",", ":")) + "\n" for line in lines).encode("utf-8")


def replies(count, shards, every):
    """What each search is to say, counted by plain lists."""
    lines = [*script_lines(count, shards, every), *map(search, REQUESTS.values())]
    return dict(zip(REQUESTS, ((line + "\n").encode("utf-8") for line in counting.replies(lines, CONDITIONS))))


def measure(options, folder, shards, every):
    count, fewer = options.documents, max(options.documents // 8, 1)
    said, whole_opening = replies(count, shards, every), opening(count, shards, every)
    whole = Case(folder, whole_opening, {}, 0, b"")
    part = Case(folder, opening(fewer, shards, every), {}, 0, b"")
    one, many = ({name: Case(folder, whole_opening, request, searches, said[name]) for name, request in REQUESTS.items()}
                 for searches in (1, 1 + options.searches))
    for number in range(options.runs):
        print(f"{shards} shard{'s' * (shards > 1)}: run {number + 1} of {options.runs}", file=sys.stderr, flush=True)
        for case in (whole, part, *one.values(), *many.values()):
            case.run(options.program)
    thousand = Case(folder, whole_opening, REQUESTS["brands"], 1001, said["brands"])
    thousand.run(options.program)
    report(options, fewer, shards, every, whole, part, one, many, thousand)


def report(options, fewer, shards, every, whole, part, one, many, thousand):
    count, seconds, peak = options.documents, whole.least.seconds, whole.least.peak
    ratio = (seconds / count) / (part.least.seconds / fewer)
    commits = f"a commit every {every:,}" if every else "one commit for all"
    print(f"{count:,} documents, {whole.size:,} bytes, {shards} shard{'s' * (shards > 1)}, {commits}:")
    print(f"  reading        {seconds:.2f} s")
    print(f"                 {count / seconds:,.0f} documents a second, {whole.size / seconds:,.0f} bytes a second")
    print(f"  ratio          {ratio:.2f} times the time per document at {fewer:,} (target: at most 1.3)")
    print(f"  peak memory    {peak:,} bytes, {peak / whole.size:.1f} for each byte (target: at most 10)")
    for name in one:
        each = (many[name].least.seconds - one[name].least.seconds) / options.searches
        print(f"  one search     {1000 * each:.2f} ms, {each / seconds:.4f} of the reading (target: at most 0.1): {name}")
    each = (thousand.least.seconds - one["brands"].least.seconds) / 1000
    print(f"  one of 1,000   {1000 * each:.2f} ms: brands, in one session")
    sys.stdout.flush()


def measure_inside(options, folder):
    """Searches for tags inside other facets, over four shards with a commit every 1,000."""
    count = options.documents
    is_dear = lambda asked: asked.leaves_out and asked.field != "brand"
    more = {name: max(options.searches // 10, 1) if is_dear(asked) else options.searches for name, asked in INSIDE.items()}
    whole = opening(count, 4, 1000, fields={**FIELDS, "number": "plong"}, made=numbered)
    said = {name: reply_inside(asked, count, 1000) for name, asked in INSIDE.items()}
    one, many = ({name: Case(folder, whole, request_inside(asked), 1 + times * more[name], said[name]) for name, asked in INSIDE.items()}
                 for times in (0, 1))
    for number in range(options.runs):
        print(f"tags inside: run {number + 1} of {options.runs}", file=sys.stderr, flush=True)
        for case in (*one.values(), *many.values()):
            case.run(options.program)
    seconds = {name: (many[name].least.seconds - one[name].least.seconds) / more[name] for name in INSIDE}
    print(f"{count:,} documents, 4 shards, a commit every 1,000; tags inside, beside a filter by a tag that they leave out or not:")
    for name, each in seconds.items():
        print(f"  one search     {1000 * each:.2f} ms: in {name}")
    for name, other, target in RATIOS:
        print(f"  ratio          {seconds[name] / seconds[other]:.2f} times {other} (target: at most {target}): {name}")
    sys.stdout.flush()


def main():
    options = argparse.ArgumentParser(description=__doc__)
    options.add_argument("--program", default=os.path.join(TOP, "crates", "fc_main", "out", "fc_main"))
    options.add_argument("--documents", type=int, default=200_000)
    options.add_argument("--runs", type=int, default=3, help="each figure is the least of so many runs")
    options.add_argument("--searches", type=int, default=100, help="a search is timed over so many, a dear one over a tenth")
    options.add_argument("--inside", action="store_true", help="only the searches for tags inside other facets")
    options = options.parse_args()
    for shards, every in () if options.inside else ((1, 1000), (1, None), (4, 1000), (64, None)):
        print(f"{shards} shard{'s' * (shards > 1)}: the replies are counted", file=sys.stderr, flush=True)
        with tempfile.TemporaryDirectory() as folder:
            measure(options, folder, shards, every)
    with tempfile.TemporaryDirectory() as folder:
        measure_inside(options, folder)
    print(f"least of {options.runs} runs; load of the machine {os.getloadavg()[0]:.1f} on {os.cpu_count()} processors")


if __name__ == "__main__":
    main()

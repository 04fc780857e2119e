"""What tools/script-of writes: of the shop's products, of the files of two tables, and beyond smaller limits. Each check is a
name, what is wanted, and what was found."""
import os
import re
import shlex
import subprocess
import sys
from unittest import mock

import right_files
import wrong_files
from calls import EXAMPLES, TOOLS, call, command, folder_of

from script_of import limits
from script_of.command import main
from script_of.fields import TYPES

SHOP, GUIDE = os.path.join(EXAMPLES, "shop"), os.path.join(os.path.dirname(EXAMPLES), "docs", "guide.md")
sys.path.insert(0, SHOP)
import count_page  # noqa: E402

# The layouts of the shop's page: shards, by a hash, a commit behind so many.
LAYOUTS = [(1, True, 12), (2, True, 12), (2, False, 5), (3, True, 4), (5, False, 1), (64, True, 7)]
# The rows of the guide's table of limits.
LIMITS = {
    "SCRIPT_BYTES": "bytes of a script", "LINE_BYTES": "bytes of a line, without its line feed", "SHARDS": "shards",
    "FIELDS": "fields, `id` among them", "NAME_BYTES": "bytes of a field's name", "TEXT_BYTES": "bytes of a text in a document",
    "DOCUMENTS": "documents that are added, children too", "VALUES": "values in all documents that are added, `id` among them",
    "FIELD_TOTAL": "absolute values of one field of integers in all documents that are added, added up", "COMMITS": "commits of one shard",
    "SESSION_BYTES": "bytes of a session's name", "NESTING": "nesting of JSON",
}
# A limit that is made so small, a file that goes beyond it, the words, and what is said. A file of one line less does not.
BEYOND = [
    ("DOCUMENTS", 3, "id\n1\n2\n3\n4\n", "",
     "a.csv, line 5, column 1: one document more than the 3 that a script may have, children too"),
    ("VALUES", 6, "id,a\n1,2\n2,3\n3,4\n4,5\n", "", "a.csv, line 5, column 1: more than the 6 values that a script may have"),
    ("LINE_BYTES", 62, "id,a\n1," + "x" * 19 + "\n2," + "x" * 20 + "\n", "",
     "a.csv, line 3, column 1: its line has 63 bytes, and one of a script has at most 62"),
    ("LINE_BYTES", 62, 'id\n1\n"' + 9 * ("x" * 9 + "\n"), "", "a.csv, line 3, column 1: this quote is not closed within 62 characters"),
    # The schema takes 36 bytes with its line feed, a document 37, the commit and the sync 14 and 12.
    ("SCRIPT_BYTES", 136, "id\n1\n2\n3\n", "", "a.csv, line 4, column 1: from here on the script would have more than 136 bytes"),
    ("SCRIPT_BYTES", 136, "id\n1\n2" + "3" * 140 + "\n", "",
     "a.csv, line 3, column 1: the line has more than 136 bytes, which is more than a script may have"),
    ("COMMITS", 2, "id\n1\n2\n3\n", "--commit-every 1",
     "a.csv, line 4, column 1: more than 2 commits; give --commit-every a greater number"),
]


def check(program):
    yield from of_the_shop(program)
    for name, files, words, lines in right_files.CASES:
        yield from of_right_files(program, name, files, words, [*lines, '{"commit":{}}', '{"sync":{}}'])
    for case in right_files.WHOLE:
        yield from of_right_files(program, *case)
    for name, files, words, told, status in wrong_files.CASES:
        yield name, (status, "", f"script-of: {told}\n"), called(files, words)
    for words, told in wrong_files.WORDS:
        status, written, said = called({}, words)
        yield f"the words {words[:40]!r}", (2, "", True), (status, written, told in said)
    yield from of_types()
    yield from of_limits()


def called(files, words):
    with folder_of(files) as folder:
        return call(main, shlex.split(words), folder)


def run(program, script):
    done = subprocess.run([program], input=script.encode("utf-8"), stdout=subprocess.PIPE, stderr=subprocess.PIPE)
    return done.returncode, done.stdout.decode("utf-8")


def joined(lines):
    return "".join(line + "\n" for line in lines)


def of_the_shop(program):
    with open(os.path.join(SHOP, "page.replies.jsonl"), encoding="utf-8") as file:
        yield "the replies of the shop's page, counted", file.read(), joined(count_page.replies())
    for shards, by_hash, commit_every in LAYOUTS:
        by = "hash" if by_hash else "turn"
        words = f"--shards {shards} --by {by} --commit-every {commit_every} --split color=; --requests page.json products.csv"
        status, script, _ = command("script-of", words.split(), SHOP)
        wanted = joined(count_page.replies(shards=shards, by_hash=by_hash, commit_every=commit_every))
        name = f"the shop's page on {shards} shards by {by}, a commit every {commit_every}"
        yield name, (0, 0, wanted), (status, *run(program, script))
        yield f"{name}, again", script, command("script-of", words.split(), SHOP)[1]
    told = "script-of: 12 documents on 1 shard: 12\nscript-of:   id     string\nscript-of:   brand  string\n" \
           "script-of:   color  strings (several values in products.csv, line 4)\nscript-of:   price  plong\n"
    yield "what is said of the shop's fields", told, command("script-of", ["--split", "color=;", "products.csv"], SHOP)[2]
    yield "standard output that is full", (73, "script-of: writing failed: No space left on device\n"), full("products.csv")


def full(path):
    """The status and the last line said where nothing can be written."""
    with open("/dev/full", "wb") as device:
        done = subprocess.run([os.path.join(TOOLS, "script-of"), path], cwd=SHOP, stdout=device, stderr=subprocess.PIPE)
    return done.returncode, done.stderr.decode("utf-8").splitlines(keepends=True)[-1]


def of_right_files(program, name, files, words, lines):
    status, script, _ = called(files, words)
    yield name, (0, joined(lines)), (status, script)
    status, replies = run(program, script)
    searches = sum(line.startswith('{"search"') for line in lines)
    yield f"{name}, read by the program", (0, searches), (status, replies.count("\n"))


def of_types():
    """The types are those of the guide's table, and `--help` names each; what is said of fields tells why a type is not another."""
    with open(GUIDE, encoding="utf-8") as file:
        table = file.read().split("| Type | Values of one document |\n", 1)[1].split("\n\n", 1)[0]
    yield "the types of fields", tuple(re.findall(r"^\| `(\w+)` \|", table, re.M)), TYPES
    status, written, _ = called({}, "--help")
    yield "the types in the help", (0, True), (status, f"the type of a field: {', '.join(TYPES)}" in " ".join(written.split()))
    date = "2024-02-29T09:00:00Z"
    files = {"a.csv": f"id,at,seen,mixed,number,text\n{date},{date},{date},{date},{date},x\n2,,{date};{date},x,7,x\n3,,,y,x,{date}\n"}
    told = "script-of: 3 documents on 1 shard: 3\nscript-of:   id      string\nscript-of:   at      pdate\n" \
           "script-of:   seen    pdates (several values in a.csv, line 3)\n" \
           "script-of:   mixed   string (a text that is no date in a.csv, line 3)\n" \
           "script-of:   number  string (a text in a.csv, line 2)\n" \
           "script-of:   text    string (a text that is no date in a.csv, line 2)\n"
    yield "what is said of dates", told, called(files, "--split 'seen=;' a.csv")[2]


def of_limits():
    """The limits are those of the guide's table; what is beyond smaller ones is told, and what just reaches them is not."""
    with open(GUIDE, encoding="utf-8") as file:
        rows = dict(re.findall(r"^\| ([^|]+) \| ([\d,]+) \| `", file.read(), re.M))
    for limit, row in LIMITS.items():
        yield f"the limit {row}", int(rows[row].replace(",", "")), getattr(limits, limit)
    for limit, small, content, words, told in BEYOND:
        with mock.patch.object(limits, limit, small):
            yield f"beyond {limit}", (65, "", f"script-of: {told}\n"), called({"a.csv": content}, f"{words} a.csv")
            less = "id\n1\n" if '"' in content else content[:content.rindex("\n", 0, -1) + 1]
            yield f"up to {limit}", 0, called({"a.csv": less}, f"{words} a.csv")[0]
    with mock.patch.object(limits, "FIELDS", 3):
        for words, found in (("--type c=plong", 65), ("", 0)):
            said = "script-of: more than 3 fields, id among them\n" if found else ""
            status, _, told = called({"a.csv": "id,a,b\n"}, f"{words} a.csv")
            yield f"as many fields as there may be, and {words or 'no more'}", (found, said), (status, told if status else "")

"""Whether the links of a document lead where they say, and whether the files that it names are there."""
import fnmatch
import functools
import glob
import os
import re

import documents
from documents import TOP

TO_LINE = re.compile(r"\[`([\w:]+)`\]\(([\w./-]+)#L(\d+)\)")
FILE = re.compile(r"\w\.(rt|antt|edit|txt|md|py|json|jsonl|csv|svg)$")
# Words that stand for a name of the reader's.
OPEN = re.compile(r"\b(NAME|X|F)\b")


def line_of(name, path):
    """The number of the line that a link to this name leads to: a clause, the head of a type, the first clause of a function; None
    where there is none."""
    short = name.split("::")[-1]
    with open(path, encoding="utf-8") as file:
        lines = file.read().split("\n")
    there = re.compile(rf"\bensures {short} \{{|\b(?:struct|trait|enum) {short}\b")
    function = re.compile(rf"\bfn {short}\b")
    for index, line in enumerate(lines):
        if there.search(line):
            return index + 1
        if function.search(line):
            return next((number for number, later in enumerate(lines[index:], index + 1)
                         if later.lstrip().startswith("ensures ")), None)
    return None


@functools.lru_cache(maxsize=None)
def headings(name):
    return documents.Document(name).headings()


def wrong_line(label, file, number):
    """What is wrong with a link to a line."""
    name = re.fullmatch(r"`([\w:]+)`", label)
    there = line_of(name[1], file) if name else None
    if there is None:
        return f"{label} names nothing that stands in {os.path.relpath(file, TOP)}"
    return None if there == number else f"{label} is at line {there} of {os.path.relpath(file, TOP)} and not {number}"


def is_said(label, file):
    """Whether a source file has what a link to it names, or is named so."""
    name = re.fullmatch(r"`(?:\w+::)*(\w+)`", label)
    if name is None or os.path.isdir(file) or file.endswith(".md"):
        return True
    with open(file, encoding="utf-8") as opened:
        return os.path.basename(file).partition(".")[0] == name[1] or re.search(rf"\b{name[1]}\b", opened.read()) is not None


def wrong_link(document, label, target):
    """What is wrong with a link; None where nothing is, or where it leads out of the tree."""
    if target is None:
        return "a link that is not of the form [text](target)"
    if re.match(r"\w+:", target):
        return None
    path, _, anchor = target.partition("#")
    file = os.path.normpath(os.path.join(document.folder, path)) if path else os.path.join(TOP, document.name)
    if not file.startswith(TOP) or not os.path.exists(file):
        return f"there is no {path}"
    if re.fullmatch(r"L\d+", anchor):
        return wrong_line(label, file, int(anchor[1:]))
    if anchor and not (file.endswith(".md") and anchor in headings(os.path.relpath(file, TOP))):
        return f"{os.path.relpath(file, TOP)} has no heading #{anchor}"
    return None if is_said(label, file) else f"{path} says nothing of {label}"


@functools.lru_cache(maxsize=None)
def paths():
    """The files and folders of the tree, each from the top on."""
    found = []
    for folder, folders, files in os.walk(TOP):
        folders[:] = [name for name in folders if name not in documents.LEFT_OUT]
        found += [os.path.join("/", os.path.relpath(folder, TOP), name) for name in (*folders, *files)]
    return found


def is_there(document, text):
    """Whether a path is there, or is none. One whose first folder is at the top, under crates/ or beside the document begins there; of
    any other file the path ends so."""
    if not re.fullmatch(r"[\w.*/-]+", text) or OPEN.search(text) or "/out" in text:
        return True
    for place in (TOP, os.path.join(TOP, "crates"), document.folder):
        if "/" in text and os.path.exists(os.path.join(place, text.split("/")[0])):
            return any(glob.glob(os.path.join(other, text)) for other in (TOP, os.path.join(TOP, "crates"), document.folder))
    return not FILE.search(text) or any(fnmatch.fnmatch(path, f"*/{text}") for path in paths())


def wrong(document):
    """What is wrong with links and names of files, each with its line."""
    for line, label, target in document.links():
        why = wrong_link(document, label, target)
        if why:
            yield line, f"[{label}]: {why}" if label else why
    for line, text in document.spans():
        first = text.strip().partition(" ")[0]
        if not is_there(document, first):
            yield line, f"`{text}`: there is no file {first}"


def put_right(document):
    """Puts the numbers right of the lines that links lead to."""
    def right(link):
        line = line_of(link[1], os.path.join(document.folder, link[2]))
        return link[0] if line is None else f"[`{link[1]}`]({link[2]}#L{line})"

    with open(os.path.join(TOP, document.name), "w", encoding="utf-8") as file:
        file.write(TO_LINE.sub(right, "\n".join(document.lines)))

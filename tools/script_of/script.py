"""The script of some documents. They are read once, into a file aside, since the schema that stands in front of them has the
types of all their values."""
import json
import marshal
import shutil
import tempfile
import zlib

from . import limits
from .documents import documents
from .faults import Fault, Place, Wrong
from .requests import requests

compact = json.JSONEncoder(ensure_ascii=False, separators=(",", ":")).encode


class Reading:
    """Reads documents, and keeps them aside: each parent with its children, as tables from fields to lists of values."""

    def __init__(self, names, fields):
        self.names, self.fields, self.aside = names, fields, tempfile.TemporaryFile()
        self.count, self.values, self.blocks, self.ids = 0, 0, 0, Ids()

    def file(self, path, form, splits):
        for document in documents(path, form, splits, self.names):
            try:
                block = [self.table(one, one is document) for one in (document, *document.children)]
            except Wrong as wrong:
                raise Fault(document.place(wrong.at), wrong.text) from wrong
            self.blocks += 1
            marshal.dump((*document.place(document.at), self.ids.update, block), self.aside)

    def table(self, document, is_parent):
        gathered = {}
        for field, at, values in document.members:
            if field in gathered:
                gathered[field][1].extend(values)
            else:
                gathered[field] = (at, list(values))
        table = {field: self.fields.take(field, at, values, document.place) for field, (at, values) in gathered.items()}
        self.identify(document, is_parent, table, gathered)
        self.count += 1
        self.values += sum(len(set(values)) for values in table.values())
        if self.count > limits.DOCUMENTS:
            raise Wrong(document.at, f"one document more than the {limits.DOCUMENTS:,} that a script may have, children too")
        if self.values > limits.VALUES:
            raise Wrong(document.at, f"more than the {limits.VALUES:,} values that a script may have")
        return {field: values for field, values in table.items() if values}

    def identify(self, document, is_parent, table, gathered):
        if not table.get("id"):
            raise Wrong(gathered["id"][0] if "id" in gathered else document.at, "the document has no id")
        name, at = table["id"][0], gathered["id"][0]
        if name == "":
            raise Wrong(at, "the id is empty")
        earlier = self.ids.take(name, is_parent, document.place(at))
        if earlier:
            raise Wrong(at, f"the id {name!r} stands already in {earlier.file}, line {earlier.line}")

    def blocks_aside(self):
        """What was kept, one block behind another, each with the number of its update, 0 where it is of none."""
        self.aside.seek(0)
        for _ in range(self.blocks):
            *place, update, block = marshal.load(self.aside)
            yield Place(*place), update, block


class Ids:
    """The ids of documents, each with its place. Behind an update a parent may have the id of an earlier parent, whose place it takes;
    the ids of that one's children are free then."""

    def __init__(self):
        self.update, self.replaced, self.places, self.parents, self.parent = 0, 0, {}, {}, None

    def take(self, name, is_parent, place):
        """Takes an id in; the place where it stands already, or nothing."""
        if is_parent and self.parents.get(name, (self.update,))[0] < self.update:
            self.replaced += 1
            for one in [name, *self.parents.pop(name)[1]]:
                del self.places[one]
        if name in self.places:
            return self.places[name]
        self.places[name] = place
        if is_parent:
            self.parents[name] = self.parent = self.update, []
        else:
            self.parent[1].append(name)
        return None


class Script:
    """Writes a script into a file aside."""

    def __init__(self, types, shards, by):
        self.types, self.shards, self.by = types, shards, by
        self.aside, self.size, self.commits, self.on_shard = tempfile.TemporaryFile(), 0, 0, [0] * shards
        self.turns = {}
        self.totals = {field: 0 for field, kind in types.items() if kind.startswith("plong")}

    def line(self, place, text):
        line = text.encode("utf-8") + b"\n"
        if len(line) - 1 > limits.LINE_BYTES:
            raise Fault(place, f"its line has {len(line) - 1:,} bytes, and one of a script has at most {limits.LINE_BYTES:,}")
        self.size += len(line)
        if self.size > limits.SCRIPT_BYTES:
            raise Fault(place, f"from here on the script would have more than {limits.SCRIPT_BYTES:,} bytes")
        self.aside.write(line)

    def schema(self):
        fields = {field: kind for field, kind in self.types.items() if field != "id"}
        self.line(None, compact({"schema": {"shards": self.shards, "fields": fields}}))

    def add(self, place, block, number):
        parent, *children = [self.members(place, table) for table in block]
        if children:
            parent["_childDocuments_"] = children
        shard = zlib.crc32(parent["id"].encode("utf-8")) if self.by == "hash" else self.turns.setdefault(parent["id"], number)
        self.on_shard[shard % self.shards] += len(block)
        self.line(place, compact({"add": {"shard": shard % self.shards, "doc": parent}}))

    def members(self, place, table):
        """The members of a document as its line has them, the id first."""
        members = {"id": table["id"][0]}
        for field, values in table.items():
            if field in self.totals:
                self.add_up(place, field, values)
            elif field != "id":
                values = [str(value) for value in values]
            members[field] = values[0] if len(values) == 1 else values
        return members

    def add_up(self, place, field, values):
        self.totals[field] += sum(map(abs, set(values)))
        if self.totals[field] > limits.FIELD_TOTAL:
            raise Fault(place, f"with this document the values of {field}, without their signs, add up to more than "
                               f"{limits.FIELD_TOTAL:,}; --type {field}=string (or strings) holds them as texts")

    def commit(self, place):
        self.commits += 1
        if self.commits > limits.COMMITS:
            raise Fault(place, f"more than {limits.COMMITS:,} commits; give --commit-every a greater number")
        self.line(place, '{"commit":{}}')

    def copy_to(self, target):
        self.aside.seek(0)
        shutil.copyfileobj(self.aside, target)


def script_of(reading, options):
    """The script of what was read, with the requests behind it."""
    script = Script(reading.fields.types(), options.shards, options.by)
    script.schema()
    is_open, last = True, 0
    for number, (place, update, block) in enumerate(reading.blocks_aside()):
        if update != last and is_open:
            script.commit(place)
        script.add(place, block, number)
        is_open, last = (number + 1) % (options.commit_every or reading.blocks + 1) != 0, update
        if not is_open:
            script.commit(place)
    if is_open:
        script.commit(None)
    script.line(None, '{"sync":{}}')
    for place, request in requests(options.requests) if options.requests else ():
        script.line(place, f'{{"search":{{"session":{compact(options.session)},"request":{request}}}}}')
    return script

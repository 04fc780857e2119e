"""The fields of the scripts, their values, and documents. Each shard has values of its own that it likes, so that shards
disagree about what is frequent."""
import date_texts

FIELDS = {"brand": "string", "kind": "string", "marks": "strings", "tags": "strings", "n": "plong", "ns": "plongs",
          "sizes": "plongs", "day": "pdate", "days": "pdates"}
VALUES = {
    "brand": ["fox", "elk", "Fox", "fo", "dark red", "é", "\uffee", "😀", "AND", 'a:"b"\\', "-7"],
    "kind": ["p", "c"],
    "marks": ["m1", "m2", "m3", "m4", "n1"],
    "tags": ["t%d" % i for i in range(20)] + ["", "10", "9", "ta", "tab", "z\n\u0001"],
    "n": [-5, -1, 0, 2, 3, 3, 7, 10, 12, 31],
    "ns": [-9, -1, 0, 1, 2, 3, 4, 5, 8, 12, 40, 10**15],
    "sizes": [36, 38, 40, 41],
    "day": ["2023-12-31T23:59:59.999Z", "2024-01-31T00:00:00.000Z", "2024-02-29T00:00:00.000Z", "2024-02-29T06:30:00.250Z",
            "2024-03-29T00:00:00.000Z", "2024-03-30T00:00:00.000Z", "2024-03-31T00:00:00.000Z", "2024-04-29T00:00:00.001Z"],
    "days": ["0001-01-01T00:00:00.000Z", "1899-12-31T23:59:58.900Z", "1900-02-28T00:00:00.000Z", "1904-02-28T12:00:00.000Z",
             "2023-12-31T23:59:59.999Z", "2024-01-01T00:00:00.000Z", "2024-02-29T00:00:00.000Z", "2024-02-29T06:30:00.250Z",
             "2024-03-01T00:00:00.000Z", "2024-03-30T00:00:00.000Z", "2025-02-28T00:00:00.000Z", "2028-02-28T00:00:00.000Z",
             "2028-02-29T00:00:00.000Z", "9999-12-31T23:59:59.999Z"],
}
MOST = {"brand": 1, "marks": 6, "tags": 8, "n": 1, "ns": 4, "sizes": 4, "day": 1, "days": 4}
TEXTS = [field for field, kind in FIELDS.items() if kind.startswith("string")]
NUMBERS = [field for field, kind in FIELDS.items() if kind.startswith("plong")]
DATES = [field for field, kind in FIELDS.items() if kind.startswith("pdate")]


def held(field, value):
    """A value of a field as documents hold it."""
    return date_texts.moment(value) if field in DATES else value


def spellings(text):
    """Other texts of a date: with fewer digits where the last ones are 0, and with more, which are dropped."""
    whole, fraction = text[:-1].split(".")
    shorter = fraction.rstrip("0")
    return [f"{whole}.{shorter}Z" if shorter else f"{whole}Z", f"{whole}.{fraction}9Z", f"{whole}.{fraction}500001Z"]


class Documents:
    """Rich documents have values in most fields, others have none in many."""

    def __init__(self, chance, shards):
        self.chance, self.number, self.are_rich = chance, 0, chance.happens(50)
        # How many of a hundred documents have an id that stood before.
        self.again = chance.one([0, 0, 10, 40])
        self.liked = [{field: [chance.one(VALUES[field]) for _ in range(3)] for field in MOST} for _ in range(shards)]

    def block(self, shard):
        """A document, with or without children. Now and then it has the id of an earlier one, be it of another shard or a child."""
        parent = self.document(shard, "p")
        if self.chance.happens(45):
            parent["_childDocuments_"] = [self.document(shard, "c") for _ in range(self.chance.below(4))]
        for one in [parent, *parent.get("_childDocuments_", [])]:
            if self.chance.happens(self.again):
                one["id"] = self.earlier_id()
        return parent

    def earlier_id(self):
        """The id of a document that was made, or of none; more often a late one."""
        back = self.chance.below(self.chance.one([4, 20, 200]))
        return "d%d" % max(self.number - back, 0) if self.chance.happens(96) else self.chance.one(["", -7, 7, "07"])

    def deletion(self, shard):
        """What a line says that deletes."""
        name = self.earlier_id() if self.chance.happens(95) else self.chance.one(["", "-7", "7", 10 ** 18, "d01", "D1"])
        return {"id": name, **({"shard": shard} if shard > 0 or self.chance.happens(50) else {})}

    def document(self, shard, kind):
        self.number += 1
        members = {"id": "d%d" % self.number, "kind": kind}
        for field, most in MOST.items():
            values = [self.value(shard, field) for _ in range(self.how_many(most))]
            if values or self.chance.happens(20):
                members[field] = self.spelled(field, values)
        if self.chance.happens(10):
            members["_version_"] = {"any": [None, 1.5]}
        return members

    def how_many(self, most):
        if most == 1:
            return self.chance.happens(75)
        return most - self.chance.below(most // 2 + 1) if self.are_rich else self.chance.below(most + 1)

    def value(self, shard, field):
        return self.chance.one(self.liked[shard][field] if self.chance.happens(55) else VALUES[field])

    def spelled(self, field, values):
        """The values as a document may hold them: alone, in an array, integers as texts and texts as integers, dates in any way."""
        if field in DATES:
            values = [self.chance.one([v, *spellings(v)]) for v in values]
        else:
            values = [self.other_spelling(v) if self.chance.happens(10) else v for v in values]
        if len(values) > 1 or self.chance.happens(30):
            return values + [None] if self.chance.happens(10) else values
        return values[0] if values else None

    @staticmethod
    def other_spelling(value):
        if isinstance(value, int):
            return "-0%d" % -value if value < 0 else "0%d" % value
        return int(value) if value in ("10", "9", "-7") else value

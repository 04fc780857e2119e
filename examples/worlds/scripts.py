"""Scripts by chance, with what it takes to count their replies."""
from counting import ordered
from worlds.chance import Chance
from worlds.documents import Documents, FIELDS
from worlds.faults import put_fault
from worlds.queries import Queries
from worlds.requests import Requests


# Every third script has phases with commits of several shards beside searches of several sessions, and is run so many times.
EVERY, RUNS = 3, 5


class World:
    """A script's lines, the conditions of its query texts, by the text of a request the error line it gives, and how often it is to
    be run."""

    def __init__(self, lines, conditions, faults, runs):
        self.lines, self.conditions, self.faults, self.runs = lines, conditions, faults, runs

    def with_lines(self, lines):
        return World(lines, self.conditions, self.faults, self.runs)


class Scripts:
    def __init__(self, chance, queries, has_beside):
        self.chance, self.has_beside = chance, has_beside
        self.shards = chance.one([2, 3, 3, 4, 5] if has_beside else [1, 2, 2, 3, 3, 4, 5])
        self.documents = Documents(chance, self.shards)
        self.queries = queries(chance)
        self.requests = Requests(chance, self.queries)
        several = [["main", "a"], ["main", "a", "é b", "s" * 64]]
        self.sessions = chance.one(several if has_beside else [["main"], *several])
        self.faults = {}

    def world(self):
        fields = {field: FIELDS[field] for field in sorted(FIELDS, key=lambda field: self.chance.below(100))}
        lines = [{"schema": {"shards": self.shards, "fields": fields}}]
        if self.chance.happens(15):
            lines += self.mixed()
        lines += self.adds(self.chance.one([4, 16, 40, 40, 60, 60]))
        lines += self.commits(80) + [{"sync": {}}]
        for _ in range(self.chance.below(4)):
            phase = self.chance.one([self.asking, self.asking, self.filling, self.mixed, self.mixed])
            lines += phase() + [{"sync": {}}]
        for _ in range(1 + self.chance.below(2) if self.has_beside else 0):
            lines += self.beside() + [{"sync": {}}]
        return World(lines + self.asking(), self.queries.conditions, self.faults, RUNS if self.has_beside else 1)

    def adds(self, most):
        lines = []
        for _ in range(1 + self.chance.below(most)):
            shard = self.chance.below(self.shards)
            is_told = shard > 0 or self.chance.happens(70)
            lines.append({"add": {"doc": self.documents.block(shard), **({"shard": shard} if is_told else {})}})
            if self.chance.happens(self.documents.again // 2):
                lines.append(self.deletion(self.chance.below(self.shards)))
            if self.chance.happens(15):
                lines += self.commits(10)
        return lines

    def deletion(self, shard):
        return {"delete": self.documents.deletion(shard)}

    def commits(self, percent_all):
        if self.chance.happens(percent_all):
            return [{"commit": {}}]
        return [{"commit": {"shard": self.chance.below(self.shards)}} for _ in range(1 + self.chance.below(2))]

    def filling(self):
        return self.adds(6) + self.commits(50)

    def asking(self):
        return [self.search() for _ in range(1 + self.chance.below(5))]

    def mixed(self):
        """Documents, commits and searches side by side."""
        lines = []
        for _ in range(2 + self.chance.below(4)):
            lines += self.chance.one([lambda: self.adds(3), lambda: self.commits(50), lambda: [self.search()]])()
        return lines

    def beside(self):
        """Commits of several shards, each behind documents of it, and searches of several sessions, in any order."""
        first = self.chance.below(self.shards)
        parts = [self.committed((first + i) % self.shards) for i in range(2 + self.chance.below(8))]
        parts += [[self.search(self.sessions[i % len(self.sessions)])] for i in range(2 + self.chance.below(5))]
        return [line for part in sorted(parts, key=lambda part: self.chance.below(100)) for line in part]

    def committed(self, shard):
        lines = [{"add": {"doc": self.documents.block(shard), "shard": shard}} for _ in range(1 + self.chance.below(4))]
        lines += [self.deletion(shard) for _ in range(self.chance.below(3)) if self.documents.again]
        return lines + [{"commit": {"shard": shard}}]

    def search(self, session=None):
        request = self.requests.request()
        if self.chance.happens(5):
            fault = put_fault(self.chance, request)
            self.faults[ordered(request)] = fault
        session = session or self.chance.one(self.sessions)
        is_told = session != "main" or self.chance.happens(30)
        return {"search": {"request": request, **({"session": session} if is_told else {})}}


def script_of(seed, number, queries=Queries):
    """The script of a number, from 0, of those of a seed."""
    return Scripts(Chance(seed << 32 | number), queries, number % EVERY == EVERY - 1).world()

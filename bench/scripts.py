"""Legal scripts that ask for much of one thing, each at any size: the same size gives the same lines. cliffs.py runs them."""
import collections

import run

# What there is, with the size in it; the size; the lines; and whether each of its requests has a fault.
Script = collections.namedtuple("Script", "what size lines faults")
# By a name, in the order of the table.
SCRIPTS = {}
END = ({"commit": {}}, {"sync": {}})
ALL = run.ALL


def script(size, what, faults=False):
    def keep(lines):
        SCRIPTS[lines.__name__.replace("_", "-")] = Script(what, size, lines, faults)
        return lines
    return keep


def schema(shards, **fields):
    return {"schema": {"shards": shards, "fields": fields}}


def add(number, shard, **members):
    return {"add": {"shard": shard, "doc": {"id": f"d{number}", **members}}}


def filled(shards, fields, documents):
    """Documents dealt out to the shards, with one commit."""
    yield schema(shards, **fields)
    for i, members in enumerate(documents):
        yield add(i, i % shards, **members)
    yield from END


def search(facet=None, **request):
    return run.search({**request, **({"facet": facet} if facet else {})})


def terms(field, **more):
    return {"type": "terms", "field": field, **more}


def gaps(field, count, width=1, **more):
    return {"type": "range", "field": field, "start": 0, "end": count * width, "gap": width, **more}


def refined(field, most, **more):
    """As many values as are asked for, each counted on all shards."""
    return terms(field, limit=most, overrequest=0, overrefine=0, refine=True, **more)


def brand(i):
    return {"brand": f"b{i % 13}"}


def texts(count, first="t"):
    return [f"{first}{i:06}" for i in range(count)]


BRAND, PRICE = {"brand": "string"}, {"price": "plong"}
LISTS = {"texts": "strings", "integers": "plongs"}
PARENTS = "kind:parent"


# Buckets in buckets.


@script(1000, "1,000 gaps in each of {:,} gaps")
def gaps_in_gaps(size):
    yield from filled(1, PRICE, ({"price": i} for i in range(size)))
    yield search({"f": gaps("price", size, facet={"g": gaps("price", 1000)})})


@script(1000, "13 brands in each of {:,} prices on four shards, five searches")
def brands_in_prices(size):
    yield from filled(4, {**BRAND, **PRICE}, ({**brand(7 * i), "price": 31 * i % size} for i in range(13 * size)))
    yield from [search({"f": terms("price", **ALL, facet={"g": terms("brand", **ALL)})})] * 5


@script(60_000, "{:,} documents on 16 shards, 13 refined brands in each of 10,000 gaps")
def refined_in_gaps(size):
    yield from filled(16, {**BRAND, **PRICE}, ({**brand(7 * i), "price": 31 * i % 10_000} for i in range(size)))
    yield search({"f": gaps("price", 10_000, facet={"g": refined("brand", 13)})})


@script(50_000, "the brands in the bucket of each of {:,} documents")
def brands_in_ids(size):
    yield from filled(1, BRAND, map(brand, range(size)))
    yield search({"f": terms("id", limit=-1, facet={"g": terms("brand")})})


@script(2000, "documents without a value in each of {:,} prices on four shards, three searches")
def missing_in_prices(size):
    inner = terms("brand", missing=True, facet={"h": terms("id", limit=1, missing=True)})
    yield from filled(4, {**BRAND, **PRICE}, ({"price": i % size} for i in range(4 * size)))
    yield from [search({"f": terms("price", limit=-1, facet={"g": inner})})] * 3


@script(5000, "{:,} documents on two shards, eight refined facets in one another")
def deep_nesting(size):
    values = ({f"f{j}": f"v{i // 3 ** j % 3}" for j in range(8)} for i in range(size))
    facet = None
    for j in reversed(range(8)):
        facet = {"f": refined(f"f{j}", 2, **({"facet": facet} if facet else {}))}
    yield from filled(2, {f"f{j}": "string" for j in range(8)}, values)
    yield from [search(facet)] * 4


@script(31, "{:,} facets side by side over 20,000 documents, five searches")
def facets_side_by_side(size):
    yield from filled(1, PRICE, ({"price": i % 1000} for i in range(20_000)))
    yield from [search({f"f{i}": terms("price", limit=1) for i in range(size)})] * 5


# Values and statistics.


@script(20_000, "20 documents with {:,} texts and as many integers, the sum for each text, five searches")
def sums_for_texts(size):
    yield from filled(1, LISTS, [{"texts": texts(size), "integers": list(range(size))}] * 20)
    yield from [search({"f": terms("texts", facet={"s": "sum(integers)"})})] * 5


@script(40_000, "{:,} documents with one text and one integer, the sum for each text, ten searches")
def sums_for_one_text(size):
    yield from filled(1, LISTS, ({"texts": f"t{i % 1000}", "integers": i} for i in range(size)))
    yield from [search({"f": terms("texts", facet={"s": "sum(integers)"})})] * 10


@script(40_000, "{:,} documents with two texts and two integers, the sum for each text, ten searches")
def sums_for_two_texts(size):
    yield from filled(1, LISTS, ({"texts": [f"t{i % 1000}", f"u{i % 999}"], "integers": [i, -i]} for i in range(size)))
    yield from [search({"f": terms("texts", facet={"s": "sum(integers)"})})] * 10


@script(3000, "20 documents with {:,} texts and as many integers, the sum for a brand in each text")
def sums_in_texts(size):
    yield from filled(1, {**LISTS, **BRAND}, [{"texts": texts(size), "integers": list(range(size)), "brand": "b"}] * 20)
    yield search({"f": terms("texts", limit=-1, facet={"g": terms("brand", facet={"s": "sum(integers)"})})})


@script(6000, "two shards that list other texts first, so that each is asked for {:,} texts with sums")
def sums_asked_for(size):
    often, seldom = texts(size), texts(size, "u")
    yield schema(2, **LISTS)
    for shard, (more, less) in enumerate(((often, seldom), (seldom, often))):
        yield add(f"{shard}a", shard, texts=more + less, integers=list(range(2 * size)))
        yield add(f"{shard}b", shard, texts=more, integers=list(range(2 * size)))
    yield from END
    yield search({"f": {**refined("texts", size, facet={"s": "sum(integers)"}), "overrefine": size}})


@script(500, "20 documents with {:,} texts and as many integers, the integers in each text")
def integers_in_texts(size):
    yield from filled(1, LISTS, [{"texts": texts(size), "integers": list(range(size))}] * 20)
    yield search({"f": terms("texts", limit=-1, facet={"g": terms("integers", limit=1)})})


@script(6000, "one document with {:,} texts and one with as many integers, the texts in each integer")
def texts_beside_integers(size):
    yield from filled(1, LISTS, [{"texts": texts(size)}, {"integers": list(range(size))}])
    yield search({"f": terms("integers", limit=-1, facet={"g": terms("texts")})})


@script(4000, "20 documents with an integer in each of {:,} gaps and in the next, the ids in each gap")
def gaps_of_long_lists(size):
    yield from filled(1, LISTS, ({"integers": [40 * i + j for i in range(2 * size)]} for j in range(20)))
    yield search({"f": gaps("integers", size, 80, facet={"g": terms("id", limit=1)})})


@script(2000, "60 statistics for each of {:,} integers")
def statistics(size):
    every = {f"s{i}": f"{('sum', 'min')[i % 2]}(price)" for i in range(60)}
    yield from filled(1, {**PRICE, "n": "plong"}, ({"n": i % size, "price": i} for i in range(10 * size)))
    yield search({"f": terms("n", limit=-1, facet=every)})


@script(1000, "60 statistics of the few documents of a brand in each of {:,} integers")
def statistics_of_few(size):
    every = {f"s{i}": f"{('sum', 'min')[i % 2]}(price)" for i in range(60)}
    yield from filled(1, {**PRICE, "brand": "string", "n": "plong"}, ({"n": i % size, "price": i, "brand": f"b{i % 13}"} for i in range(100 * size)))
    yield search({"f": terms("n", limit=-1, facet={"g": {"type": "query", "q": "brand:b1", "facet": every}})})


@script(500, "{:,} texts of 8,000 letters, each with the one before as its front, on four shards, three searches")
def texts_with_one_front(size):
    yield from filled(4, {"text": "string"}, ({"text": "x" * (8000 + i)} for i in range(size)))
    yield from [search({"f": refined("text", size)})] * 3


@script(25_000, "a page of a quarter from the middle of {:,} refined prices on four shards, three searches")
def late_pages(size):
    yield from filled(4, PRICE, ({"price": 31 * i % size} for i in range(size)))
    yield from [search({"f": terms("price", offset=size // 2, limit=size // 4, refine=True)})] * 3


# Shards.


@script(1000, "{:,} prices that each of 64 shards has")
def prices_on_64_shards(size):
    yield from filled(64, PRICE, ({"price": i // 64} for i in range(64 * size)))
    yield search({"f": terms("price", limit=-1)})


@script(5000, "{:,} refined ids, each on one of 64 shards")
def ids_on_64_shards(size):
    yield from filled(64, {}, ({} for _ in range(size)))
    yield search({"f": terms("id", limit=size, refine=True)})


@script(20, "16 shards with {:,} refined integers of their own, in one text of 30,000 letters")
def long_ways(size):
    yield from filled(16, LISTS, ({"texts": "x" * 30_000, "integers": list(range(i, 16 * size, 16))} for i in range(16)))
    yield search({"f": terms("texts", refine=True, facet={"g": terms("integers", limit=16 * size, refine=True)})})


@script(2000, "{:,} searches of 64 shards for a count")
def searches_of_64_shards(size):
    yield from filled(64, BRAND, map(brand, range(6400)))
    yield from [search()] * size


@script(4000, "{:,} searches of 16 sessions")
def sessions(size):
    yield from filled(1, BRAND, map(brand, range(1000)))
    for i in range(size):
        yield {"search": {"session": f"session {i % 16}", "request": {"facet": {"f": terms("brand")}}}}


# Commits and phases.


@script(750, "a commit and a search in each of {:,} phases")
def phases(size):
    yield schema(1, **BRAND)
    for i in range(size):
        yield from (add(i, 0, **brand(i)), *END, search({"f": terms("brand")}))


@script(500, "a commit on each of 64 shards in each of {:,} phases, one search")
def phases_on_64_shards(size):
    yield schema(64)
    for i in range(64 * size):
        yield add(i, i % 64)
        yield from END if i % 64 == 63 else ()
    yield search()


@script(1000, "a commit in each of {:,} phases, a schema of 256 fields, one search")
def phases_of_256_fields(size):
    yield schema(1, **{f"f{j}": "string" for j in range(255)})
    for i in range(size):
        yield from (add(i, 0), *END)
    yield search()


@script(500, "a commit in each of {:,} phases, three searches for 10,000 gaps")
def gaps_of_phases(size):
    yield schema(1, **PRICE)
    for i in range(size):
        yield from (add(i, 0, price=i), *END)
    yield from [search({"f": gaps("price", 10_000, facet={"s": "sum(price)"})})] * 3


@script(250, "a commit in each of {:,} phases, a tag excluded in each of 100 gaps")
def exclusion_of_phases(size):
    yield schema(1, **BRAND, **PRICE)
    for i in range(100 * size):
        yield add(i, 0, price=i % 100, **brand(i // 100))
        yield from END if i % 100 == 99 else ()
    excluding = terms("brand", domain={"excludeTags": "t"})
    yield search({"f": gaps("price", 100, facet={"g": excluding})}, filter="{!tag=t}brand:b1")


@script(2000, "{:,} commits of a document, a search beside each")
def published_commits(size):
    yield schema(1, **BRAND)
    for i in range(size):
        yield from (add(i, 0, **brand(i)), {"commit": {}}, search())


@script(1000, "{:,} commits of 25 documents with one of 255 fields each, a search beside each")
def published_commits_of_256_fields(size):
    yield schema(1, **{f"f{j}": "string" for j in range(255)})
    for i in range(25 * size):
        yield add(i, 0, **{f"f{i % 255}": "a"})
        yield from ({"commit": {}}, search()) if i % 25 == 24 else ()


@script(2000, "{:,} commits on 64 shards in one phase, ten searches")
def small_commits(size):
    yield schema(64, **BRAND)
    for i in range(size):
        yield from (add(i, i % 64, **brand(i)), {"commit": {}})
    yield {"sync": {}}
    yield from [search({"f": terms("brand")})] * 10


@script(2000, "each of {:,} documents deleted in a commit of its own, a search beside each")
def published_deletes(size):
    yield from filled(1, BRAND, map(brand, range(size)))
    for i in range(size):
        yield from ({"delete": {"id": f"d{7 * i % size}"}}, {"commit": {}}, search())


@script(2000, "each of {:,} documents overwritten in a commit of its own, a search beside each")
def published_overwrites(size):
    yield from filled(1, BRAND, map(brand, range(size)))
    for i in range(size):
        yield from (add(7 * i % size, 0, **brand(i)), {"commit": {}}, search())


@script(20_000, "one id deleted and added {:,} times, ten times a commit, beside 20,000 children with it; a search beside each commit")
def one_id_again(size):
    yield schema(1, **BRAND)
    yield {"add": {"doc": {"id": "p", "_childDocuments_": [{"id": "d0"}] * 20_000}}}
    yield from END
    for i in range(size):
        yield from ({"delete": {"id": "d0"}}, add(0, 0, **brand(i)))
        yield from ({"commit": {}}, search()) if i % 10 == 9 else ()


# Filters, tags and queries.


@script(6000, "a filter with {:,} tags and a facet that excludes as many others")
def tags(size):
    yield from filled(1, BRAND, map(brand, range(13)))
    excluding = terms("brand", domain={"excludeTags": ",".join(texts(size, "u"))})
    yield search({"f": excluding}, filter=f"{{!tag={','.join(texts(size))}}}brand:b1")


@script(3000, "{:,} tags excluded in each of as many prices")
def tags_in_prices(size):
    yield from filled(1, {**BRAND, **PRICE}, ({**brand(i), "price": i} for i in range(size)))
    excluding = terms("brand", domain={"excludeTags": texts(size)})
    yield search({"f": terms("price", limit=-1, facet={"g": excluding})}, filter="{!tag=t}brand:[b1 TO b5]")


@script(31, "{:,} filters and as many facets that leave out one each, 50,000 documents, five searches")
def filters_left_out(size):
    yield from filled(1, {**BRAND, **PRICE}, ({**brand(i), "price": i % 1000} for i in range(50_000)))
    excluding = {f"f{i}": terms("brand", domain={"excludeTags": f"t{i}"}) for i in range(size)}
    yield from [search(excluding, filter=[f"{{!tag=t{i}}}-price:{i}" for i in range(size)])] * 5


@script(1000, "a tag excluded in each of {:,} prices, 20,000 documents, three searches")
def exclusion_in_prices(size):
    yield from filled(1, {**BRAND, **PRICE}, ({**brand(i), "price": i % size} for i in range(20_000)))
    excluding = terms("brand", domain={"excludeTags": "t"})
    filters = ["{!tag=t}brand:[b0 TO b5]", "-brand:b2"]
    yield from [search({"f": terms("price", limit=-1, facet={"g": excluding})}, filter=filters)] * 3


@script(5000, "a tag excluded in each of {:,} gaps on 16 shards, which are empty but for one")
def exclusion_in_gaps(size):
    yield from filled(16, {**BRAND, **PRICE}, ({**brand(i), "price": i} for i in range(1000)))
    excluding = terms("brand", domain={"excludeTags": "t"})
    yield search({"f": gaps("price", size, facet={"g": excluding})}, filter="{!tag=t}price:0")


@script(20_000, "a query of {:,} clauses over as many documents, four searches")
def clauses(size):
    yield from filled(1, PRICE, ({"price": i} for i in range(size)))
    yield from [search(query=" ".join(f"price:{i}" for i in range(size)))] * 4


@script(1000, "a domain filter of {:,} clauses in each of as many prices, 10,000 documents")
def clauses_in_prices(size):
    yield from filled(1, {**BRAND, **PRICE}, ({**brand(i), "price": i % size} for i in range(10_000)))
    narrowed = terms("brand", limit=1, domain={"filter": " ".join(f"price:{i}" for i in range(size))})
    yield search({"f": terms("price", limit=-1, facet={"g": narrowed})})


@script(100_000, "a query of {:,} clauses and no document")
def long_queries(size):
    yield schema(1, **BRAND)
    yield search(query="brand:(" + "b " * size + ")")


@script(10_000, "{:,} requests with a fault", faults=True)
def faulty_requests(size):
    yield schema(1, **BRAND)
    yield from [search({"f": terms("brand", facet={"g": terms("brands")})})] * size


# Documents.


@script(100_000, "{:,} documents with an id alone")
def ids_alone(size):
    yield from filled(1, {}, ({} for _ in range(size)))
    yield search()


@script(20_000, "{:,} documents with one of 64 fields each, 64 facets, three searches")
def sparse_documents(size):
    yield from filled(1, {f"f{j}": "string" for j in range(63)}, ({f"f{i % 63}": f"v{i % 100}"} for i in range(size)))
    yield from [search({f"f{j}": terms(f"f{j}") for j in range(63)})] * 3


@script(15_000, "one parent with {:,} children, and the parents of each of 1,000 colors, three searches")
def children_of_one_parent(size):
    yield schema(1, kind="string", color="string")
    children = [{"id": f"c{i}", "color": f"r{i % 1000}"} for i in range(size)]
    yield add("p", 0, kind="parent", _childDocuments_=children)
    yield from END
    yield from [parents_of_colors()] * 3


@script(10_000, "{:,} parents with a child each, and the parents of each of 1,000 colors, three searches")
def parents_of_one_child(size):
    families = ({"kind": "parent", "_childDocuments_": [{"id": f"c{i}", "color": f"r{i % 1000}"}]} for i in range(size))
    yield from filled(1, {"kind": "string", "color": "string"}, families)
    yield from [parents_of_colors()] * 3


def parents_of_colors():
    parents = terms("kind", domain={"blockParent": PARENTS})
    return search({"f": terms("color", limit=-1, domain={"blockChildren": PARENTS}, facet={"g": parents})}, query=PARENTS)


@script(60_000, "a document with {:,} objects in a member that is passed over")
def objects_passed_over(size):
    yield from filled(1, {}, [{"_passed_over_": [{"": 0}] * size}])
    yield search()

"""Replies as one page that needs nothing beside it. All that comes from data goes through `text` or `name`, which escape it."""
import html

from . import faults, reading
from .histogram import histogram
from .style import STYLE
from .text import BESIDE, documents, how_many, label, value, visible

# So many buckets stand in the open; the others unfold. A histogram's buckets unfold where there are more than so many.
OPEN, OPEN_BELOW_HISTOGRAM = 20, 6


def text(words):
    return html.escape(visible(words))


def name(shown):
    """A name or a value, in its own direction."""
    return f'<bdi dir="auto">{html.escape(shown)}</bdi>'


def begin():
    yield '<!DOCTYPE html>\n<html lang="en">\n<head>\n<meta charset="utf-8">'
    yield '<meta name="viewport" content="width=device-width, initial-scale=1">\n<title>Replies</title>'
    yield f"<style>\n{STYLE}\n</style>\n</head>\n<body>\n<main>\n<h1>Replies</h1>"


def end(count):
    if not count:
        yield '<p class="none">No replies: the script had no search.</p>'
    yield "</main>\n</body>\n</html>"


def section(number, said):
    """The part of the page that shows what the line with this number says."""
    if isinstance(said, reading.ScriptFault):
        line = f"line {said.line}" if said.line else "no line of it"
        yield from fault("The script has a fault", faults.of_script(said), f"{text(said.name)}, number {said.number}, {line}")
    elif isinstance(said, reading.RequestFault):
        at = f", at {' &gt; '.join(name(label(one)) for one in said.path)}" if said.path else ""
        yield from fault(f"{number}. The request has a fault", faults.of_request(said),
                         f"{text(said.name)}, number {said.number}{at}, session {name(label(said.session))}")
    elif isinstance(said, reading.Sent):
        yield from sent(said)
    else:
        numbers = ", ".join(map(str, said.generations))
        yield f'<section class="reply">\n<h2>{number}. {documents(said.bucket.count)}</h2>'
        yield f'<p class="about">session {name(label(said.session))}, generations {numbers}</p>'
        yield from inside(said.bucket, "facets", 3, 0)
        yield "</section>"


def sent(said):
    yield f'<section class="reply">\n<h2>Search {said.search}: what was sent</h2>\n<table>'
    yield "<tr>" + "".join(f"<th>{one}</th>" for one in reading.SENT_HEADS) + "</tr>"
    for row in reading.sent_table(said):
        yield "<tr>" + "".join(f"<td>{one:,}</td>" for one in row) + "</tr>"
    yield "</table>\n</section>"


def fault(title, words, told):
    yield f'<section class="reply fault">\n<h2>{title}</h2>\n<p>{text(words)}</p>'
    yield f'<p class="about"><code>{told}</code></p>\n</section>'


def inside(bucket, kind, level, most):
    """The statistics and the facets of a bucket, under headings of this level. The longest bar around stands for `most`."""
    if bucket.statistics:
        yield '<dl class="figures">'
        for title, number in bucket.statistics:
            yield f"<div><dt>{name(label(title))}</dt><dd>{number:,}</dd></div>"
        yield "</dl>"
    yield from facets(bucket, kind, level, most)


def facets(bucket, kind, level, most):
    if bucket.facets:
        yield f'<div class="{kind}">'
        for title, facet in bucket.facets:
            yield f'<section class="facet">\n<h{level}>{name(label(title))}</h{level}>'
            if isinstance(facet, reading.Bucket):
                yield f'<p class="about">{documents(facet.count)}</p>'
                yield from inside(facet, "nested", 4, most)
            else:
                yield from of_buckets(facet, most)
            yield "</section>"
        yield "</div>"


def of_buckets(facet, most):
    most = max([most, *(one.count for one in facet.buckets)])
    shown = len(facet.buckets) if len(facet.buckets) <= OPEN + 1 else OPEN
    told = how_many(facet)
    if told:
        yield f'<p class="none">{told}</p>'
    if facet.buckets and reading.is_range(facet):
        yield from histogram(facet.buckets)
        shown = shown if len(facet.buckets) <= OPEN_BELOW_HISTOGRAM else 0
    yield from listed(facet.buckets[:shown], most, "<ol>", "</ol>")
    hidden = facet.buckets[shown:]
    title = f"{len(hidden):,} more" if shown else f"{len(hidden):,} buckets"
    yield from listed(hidden, most, f'<details>\n<summary>{title}</summary>\n<ol class="scroll">', "</ol>\n</details>")
    beside = [(f'<span class="beside">{html.escape(BESIDE[other])}</span>', one) for other, one in facet.beside]
    if beside:
        yield "<ol>"
        for title, one in beside:
            yield from row(title, one, most, has_bar=False)
        yield "</ol>"


def listed(buckets, most, opening, closing):
    if buckets:
        yield opening
        for one in buckets:
            yield from row(f'<span class="label">{name(value(one.value))}</span>', one, most)
        yield closing


def row(title, bucket, most, has_bar=True):
    """A bucket's line, which unfolds where facets are nested in it."""
    line = f'{title}<span class="count">{bucket.count:,}</span>'
    if has_bar:
        share = 100 * bucket.count / most if bucket.count > 0 else 0
        line += f'<span class="track"><span style="width:{max(share, 1) if share else 0:.4g}%"></span></span>'
    if bucket.statistics:
        told = ", ".join(f"{name(label(title))} {number:,}" for title, number in bucket.statistics)
        line += f'<span class="statistics">{told}</span>'
    if bucket.facets:
        yield f'<li><details><summary class="row">{line}</summary>'
        yield from facets(bucket, "nested", 4, most)
        yield "</details></li>"
    else:
        yield f'<li class="row">{line}</li>'

"""The buckets of a range as bars in SVG."""

# More bars than these are too thin to be seen; then each stands for several buckets.
BARS = 120
HEIGHT = 100


def histogram(buckets):
    """The figure of some buckets, of which there is at least one, with numbers or dates as values."""
    most = max(one.count for one in buckets)
    each = -(-len(buckets) // BARS)
    bars = [buckets[i:i + each] for i in range(0, len(buckets), each)]
    first, last = buckets[0].value, buckets[-1].value
    told = f"{len(buckets):,} buckets, the first with the value {first} and the last with {last}; the greatest count is {most:,}"
    yield f'<figure><svg role="img" aria-label="{told}" viewBox="0 0 {len(bars)} {HEIGHT}" preserveAspectRatio="none">'
    for number, bar in enumerate(bars):
        yield rectangle(number, bar, most)
    several = f", each bar the greatest of {each}" if each > 1 else ""
    told = f"<span>{first}</span><span>greatest count {most:,}{several}</span><span>{last}</span>"
    yield f"</svg><figcaption>{told}</figcaption></figure>"


def rectangle(number, bar, most):
    count = max(one.count for one in bar)
    height = max(1, HEIGHT * count / most) if count > 0 else 0
    values = f"{bar[0].value}" if len(bar) == 1 else f"{bar[0].value} to {bar[-1].value}, at most"
    return (f'<rect x="{number + 0.05:g}" y="{HEIGHT - height:g}" width="0.9" height="{height:g}">'
            f"<title>{values}: {count:,}</title></rect>")

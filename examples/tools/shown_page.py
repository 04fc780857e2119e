"""What a page has in it, read by Python's own parser of HTML, which knows nothing of how the page is made."""
from html.parser import HTMLParser

EMPTY = {"meta"}
# What may stand in a page, each with the attributes that it may have. None of them runs or fetches anything.
ALLOWED = {
    "html": {"lang"}, "head": set(), "meta": {"charset", "name", "content"}, "title": set(), "style": set(), "body": set(),
    "main": set(), "h1": set(), "h2": set(), "h3": set(), "h4": set(), "section": {"class"}, "p": {"class"}, "b": set(),
    "code": set(), "bdi": {"dir"}, "dl": {"class"}, "dt": set(), "dd": set(), "div": {"class"}, "ol": {"class"},
    "li": {"class"}, "details": set(), "summary": {"class"}, "span": {"class", "style"}, "figure": set(), "figcaption": set(),
    "table": set(), "tr": set(), "th": set(), "td": set(),
    "svg": {"role", "aria-label", "viewbox", "preserveaspectratio"}, "rect": {"x", "y", "width", "height"},
}


class Page(HTMLParser):
    """Notes what is wrong, the texts in a direction of their own, each element's text, and the rows."""

    def __init__(self, text):
        super().__init__(convert_charrefs=True)
        self.open, self.wrong, self.names, self.texts, self.elements, self.rows = [], [], [], [], [], []
        self.feed(text)
        self.close()
        if self.open:
            self.wrong.append(f"not closed: {self.open}")

    def handle_starttag(self, tag, attributes):
        self.elements.append(tag)
        if tag not in ALLOWED or {name for name, _ in attributes} - ALLOWED[tag]:
            self.wrong.append(f"not allowed: {self.get_starttag_text()}")
        given = dict(attributes)
        if tag == "bdi":
            if given != {"dir": "auto"}:
                self.wrong.append(f"a direction that is not found: {self.get_starttag_text()}")
            self.names.append("")
        if given.get("class") == "row":
            self.rows.append({"label": None, "count": "", "share": None})
        if tag == "span" and "style" in given:
            self.rows[-1]["share"] = float(given["style"][len("width:"):-len("%")])
        if tag not in EMPTY:
            self.open.append((tag, given.get("class")))

    def handle_startendtag(self, tag, attributes):
        self.handle_starttag(tag, attributes)
        if tag not in EMPTY:
            self.open.pop()

    def handle_endtag(self, tag):
        if not self.open or self.open[-1][0] != tag:
            self.wrong.append(f"</{tag}> at {self.getpos()} closes nothing of {self.open[-3:]}")
        else:
            self.open.pop()

    def handle_data(self, text):
        inner = self.open[-1] if self.open else (None, None)
        if inner[0] == "bdi":
            self.names[-1] += text
        elif inner[0] not in ("style", "title") and text.strip():
            self.texts.append(text.strip())
        if inner == ("span", "count"):
            self.rows[-1]["count"] += text
        if ("span", "label") in self.open:
            self.rows[-1]["label"] = (self.rows[-1]["label"] or "") + text

    def handle_decl(self, declaration):
        if declaration != "DOCTYPE html" or self.elements:
            self.wrong.append(f"<!{declaration}>")

    def unknown_decl(self, data):
        self.wrong.append(f"<![{data}")

    def handle_pi(self, data):
        self.wrong.append(f"<?{data}")

    def handle_comment(self, data):
        self.wrong.append(f"<!--{data}")

"""A page, read by two parsers that have nothing to do with its writer: expat for XML and html.parser for HTML."""
import gc
import html.parser
import xml.parsers.expat

VOID = {"area", "base", "br", "col", "embed", "hr", "img", "input", "link", "meta", "source", "track", "wbr"}


class Node:
    """An element, or a comment with the tag #comment. Its children are nodes and texts."""
    __slots__ = ("tag", "attrs", "children", "parent")

    def __init__(self, tag, attrs, parent):
        self.tag, self.attrs, self.children, self.parent = tag, attrs, [], parent

    def add(self, tag, attrs):
        node = Node(tag, attrs, self)
        self.children.append(node)
        return node

    def add_text(self, text):
        if self.children and isinstance(self.children[-1], str):
            text = self.children.pop() + text
        self.children.append(text)

    def nodes(self):
        """This node and all below it, in the order of the page."""
        todo = [self]
        while todo:
            node = todo.pop()
            yield node
            if node.children:
                todo += node.inside()[::-1]

    def inside(self):
        """Its children without the texts."""
        return [child for child in self.children if not isinstance(child, str)]

    def find(self, tag, name=None):
        """The elements below it with this tag and, if it is given, this class."""
        return [node for node in self.nodes() if node.tag == tag and (name is None or name in node.classes())]

    def classes(self):
        return self.attrs.get("class", "").split()

    def text(self):
        """All text in it, as it is."""
        if self.tag == "#comment":
            return ""
        return "".join(child if isinstance(child, str) else child.text() for child in self.children)

    def words(self):
        """All text in it, with one space between words."""
        return " ".join(self.text().split())


class Page:
    """A page: its root, all its elements in their order, and those with an id. Raises ExpatError if it is not well-formed."""

    def __init__(self, page):
        top = Node("#top", {}, None)
        at, nodes = [top], []
        parser = xml.parsers.expat.ParserCreate("UTF-8")
        parser.buffer_text = True

        def start(tag, attrs):
            node = at[-1].add(tag, attrs)
            at.append(node)
            nodes.append(node)
        parser.StartElementHandler = start
        parser.EndElementHandler = lambda tag: at.pop()
        parser.CharacterDataHandler = lambda text: at[-1].add_text(text)
        parser.CommentHandler = lambda text: at[-1].add("#comment", {}).add_text(text)
        gc.disable()  # nothing can be freed while the tree grows, and looking for it takes long
        try:
            parser.Parse(page, True)
        finally:
            gc.enable()
        self.bytes, self.root, self.nodes = page, nodes[0], nodes
        self.ids = {node.attrs["id"]: node for node in nodes if "id" in node.attrs}


class HtmlReader(html.parser.HTMLParser):
    """Builds the tree as a browser would open and close elements, and notes what a browser would have to mend."""

    def __init__(self):
        super().__init__(convert_charrefs=True)
        self.top = self.at = Node("#top", {}, None)
        self.mended = []

    def in_drawing(self):
        node = self.at
        while node and node.tag != "svg":
            node = node.parent
        return bool(node)

    def handle_starttag(self, tag, attrs):
        names = [name for name, _ in attrs]
        if len(set(names)) != len(names):
            self.mended.append(f"<{tag}> has an attribute twice")
        node = self.at.add(tag, dict(attrs))
        if tag not in VOID:
            self.at = node

    def handle_startendtag(self, tag, attrs):
        self.handle_starttag(tag, attrs)
        if tag not in VOID and (tag == "svg" or self.in_drawing()):
            self.at = self.at.parent
        elif tag not in VOID:
            self.mended.append(f"<{tag}/> is not closed in HTML")

    def handle_endtag(self, tag):
        if tag != self.at.tag:
            self.mended.append(f"</{tag}> in <{self.at.tag}>")
        elif self.at.parent:
            self.at = self.at.parent

    def handle_data(self, data):
        self.at.add_text(data)

    def handle_comment(self, data):
        self.at.add("#comment", {}).add_text(data)


def lower(attrs):
    return {name.lower(): value for name, value in attrs.items()}


def unlike(one, other):
    """The first place in which two trees differ, or None. HTML knows no capitals in names."""
    todo = [(one, other)]
    while todo:
        a, b = todo.pop()
        if isinstance(a, str) or isinstance(b, str):
            if a != b:
                return f"{a if isinstance(a, str) else a.tag!r} and {b if isinstance(b, str) else b.tag!r}"
        elif a.tag.lower() != b.tag.lower() or lower(a.attrs) != lower(b.attrs):
            return f"<{a.tag} {a.attrs}> and <{b.tag} {b.attrs}>"
        elif len(a.children) != len(b.children):
            return f"<{a.tag} {a.attrs}> has {len(a.children)} children and {len(b.children)}"
        else:
            todo += zip(a.children, b.children)
    return None


def check_html(page):
    """html.parser sees what expat saw."""
    reader = HtmlReader()
    reader.feed(page.bytes.decode("utf-8"))
    reader.close()
    yield from (f"HTML: {what}" for what in reader.mended[:3])
    if reader.at is not reader.top:
        yield f"HTML: <{reader.at.tag}> is never closed"
    seen = [child for child in reader.top.inside() if child.tag != "#comment"]
    if len(seen) != 1:
        yield f"HTML: {len(seen)} elements at the top"
        return
    difference = unlike(page.root, seen[0])
    if difference:
        yield f"XML and HTML differ: {difference[:200]}"


# what may not stand in an element, since HTML would close it or move it away; None: nothing may
NOT_IN = {"p": {"p", "ul", "div", "table", "section", "header", "h1", "h2", "h3", "li", "tr", "td"},
          "table": {"tr", "td", "th", "p", "div", "span"}, "tbody": {"td", "th", "p"}, "tr": {"p", "div", "span", "a"},
          "ul": {"p", "div", "span", "a", "ul"}, "title": None}


def check_moved(page):
    """No element stands where a browser that reads HTML would move it away, though both parsers let it pass."""
    for node in page.nodes:
        if node.tag not in NOT_IN:
            continue
        tags = {child.tag for child in node.inside()}
        for tag in sorted(tags if NOT_IN[node.tag] is None else tags & NOT_IN[node.tag]):
            yield f"HTML: <{tag}> in <{node.tag}> would be moved, or shown as text"
        if node.tag in ("table", "tbody", "tr") and any(isinstance(child, str) and child.strip() for child in node.children):
            yield f"HTML: text in <{node.tag}> would be moved"

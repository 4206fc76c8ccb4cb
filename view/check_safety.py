"""A page can do nothing: no script, nothing fetched, the policy in its head; its ids are unique and its links lead somewhere."""
import collections
import re

POLICY = "default-src 'none'; style-src 'unsafe-inline'; base-uri 'none'; form-action 'none'"
SPACES = {"html": "http://www.w3.org/1999/xhtml", "svg": "http://www.w3.org/2000/svg"}
ACTIVE = set("""animate animatemotion animatetransform applet audio base button embed feimage foreignobject form frame frameset
    handler iframe image img link listener math noscript object script set source template track video""".split())
FETCHING = {"action", "archive", "background", "codebase", "data", "formaction", "manifest", "ping", "poster", "src", "srcdoc",
            "srcset", "xml:base"}

PLACE = re.compile(r"#[A-Za-z][\w-]*")
OUTSIDE = re.compile(r"url\((?!#)|javascript:|@import|expression\(")


def check_text(page):
    """What can be told from the bytes alone."""
    for name, byte in ("CR", b"\r"), ("NUL", b"\0"):
        if byte in page:
            yield f"unsafe: a {name} in the page"
    for reference in sorted(set(re.findall(rb"&([A-Za-z][A-Za-z0-9]*);?", page)) - {b"lt", b"gt", b"amp", b"quot"}):
        yield f"unsafe: the reference &{reference.decode()}"
    if not page.startswith(b"<!DOCTYPE html>"):
        yield "the page does not start with <!DOCTYPE html>"


def unsafe(name, value):
    """Whether an attribute could do or fetch anything."""
    plain = name.lower()
    if plain.startswith("on") or plain in FETCHING:
        return True
    if plain in ("href", "xlink:href"):
        return not PLACE.fullmatch(value)
    if "(" not in value and ":" not in value:
        return False
    low = "".join(value.lower().split())
    return bool(OUTSIDE.search(low)) or (plain == "style" and "url(" in low)


def namespace(node):
    """The one that is set nearest above it."""
    while node.parent and "xmlns" not in node.attrs:
        node = node.parent
    return node.attrs.get("xmlns")


def check_element(node):
    if node.tag.lower() in ACTIVE:
        yield f"unsafe: <{node.tag}>"
    for name, value in node.attrs.items():
        if unsafe(name, value):
            yield f"unsafe: {name}={value[:60]!r} in <{node.tag}>"
    if node.tag.lower() == "style":
        low = "".join(node.text().lower().split())
        if OUTSIDE.search(low) or "\\" in low:
            yield "unsafe: the style fetches something, or hides what it says"
    if node.tag in SPACES and namespace(node) != SPACES[node.tag]:
        yield f"<{node.tag}> without its namespace"


def check_policy(root):
    metas = [node for head in root.inside() if head.tag == "head" for node in head.find("meta") if "http-equiv" in node.attrs]
    found = [(node.attrs["http-equiv"].lower(), node.attrs.get("content")) for node in metas]
    if found != [("content-security-policy", POLICY)]:
        yield f"unsafe: the policy in the head is {found}"


def check_links(nodes):
    ids = collections.Counter(node.attrs["id"] for node in nodes if "id" in node.attrs)
    for name in [name for name, count in ids.items() if count > 1]:
        yield f"the id {name} occurs {ids[name]} times"
    for node in nodes:
        targets = [node.attrs.get("href", "#")[1:], node.attrs.get("for", "")]
        for value in node.attrs.values():
            if "url(#" in value:
                targets += re.findall(r"url\(#([^)]*)\)", value)
        for target in targets:
            if target and target not in ids:
                yield f"the link to #{target} leads nowhere"


def check_safety(page):
    yield from check_text(page.bytes)
    for node in page.nodes:
        yield from check_element(node)
    yield from check_policy(page.root)
    yield from check_links(page.nodes)

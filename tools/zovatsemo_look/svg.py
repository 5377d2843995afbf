"""A picture of SVG in fewer bytes, which looks the same: shorter paths, and a class for a style that is frequent."""
import collections
import re

OFTEN = 4
CRISP = '\n[id*="packet-"]:not([id*="other-"]){shape-rendering:crispEdges}'  # no pale seams between bars that touch
PACKET = re.compile(r"(?:[a-z]\d+-)?packet-.*")


def shortened(drawn):
    """The bytes of a picture, shortened."""
    text = drawn.decode()
    text = re.sub(r' (?:x|y)="[^"]*"', lambda found: two_digits(found.group()), text)
    text = re.sub(r' d="([^"]*)"', lambda found: ' d="%s"' % path_of(two_digits(found.group(1))), text)
    text = re.sub(r'<g id="((?:[a-z]\d+-)?[a-z]+-[^"]+)">\s*<path ([^>]*)/>\s*</g>', r'<path id="\1" \2/>', text)
    return re.sub(r"\n\s*", "\n", with_classes(text)).encode()


def inline(drawn, prefix):
    """A shortened picture as a part of an HTML page: without the head of a file, and with ids and classes of its own. The
    ids of packets stay."""
    text = drawn.decode()
    text = re.sub(r"<metadata>.*?</metadata>\n?", "", text[text.index("<svg"):], flags=re.DOTALL)
    text = re.sub(r'(<svg [^>]*?) (?:width|height)="[^"]*"', r"\1", text, count=1)
    text = re.sub(r'(<svg [^>]*?) (?:width|height)="[^"]*"', r"\1", text, count=1)
    for form in (r'( id=")([^"]+)', r'(href="#)([^"]+)', r"(url\(#)([^)]+)", r'(?s)( class=")([^"]+)'):
        text = re.sub(form, lambda found: found.group(1) + ("" if PACKET.fullmatch(found.group(2)) else prefix)
                      + found.group(2), text)
    return re.sub(r"\n\.(c\d+\{)", r"\n." + prefix + r"\1", text)


def two_digits(text):
    """Numbers with two digits behind the point."""
    return re.sub(r"(\.\d\d)\d+", r"\1", text)


def path_of(data):
    """The words of a path, where lines that go straight across or up have one number, and those that go on are one."""
    moves, here = [], None
    for kind, rest in re.findall(r"([MLCQz])([^MLCQz]*)", data):
        point = rest.split()
        if kind == "L" and here and (point[0] == here[0] or point[1] == here[1]):
            go_straight(moves, here, point)
        else:
            moves.append((kind, " ".join(point), None))
        here = point[-2:]
    return "".join(letter + numbers for letter, numbers, _ in moves)


def go_straight(moves, here, point):
    """Adds a line across or up, or makes the last one longer; each has its letter, where it ends and where it began."""
    at = 0 if point[1] == here[1] else 1
    letter, begin, end = "HV"[at], here[at], point[at]
    if begin == end:
        return
    last, _, last_begin = moves[-1]
    if last == letter and (float(last_begin) < float(begin)) == (float(begin) < float(end)):
        begin = moves.pop()[2]
    moves.append((letter, end, begin))


def with_classes(text):
    """Styles that come often as classes."""
    counts = collections.Counter(re.findall(r' style="([^"]*)"', text))
    names = {style: "c%d" % at for at, (style, count) in enumerate(counts.items()) if count >= OFTEN}
    text = re.sub(r' style="([^"]*)"', lambda found: ' class="%s"' % names[found.group(1)]
                  if found.group(1) in names else found.group(), text)
    rules = CRISP if 'packet-' in text else ""
    rules += "".join("\n.%s{%s}" % (name, style) for style, name in names.items())
    return text.replace("</style>", rules + "</style>", 1)

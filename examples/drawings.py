#!/usr/bin/env python3
"""Compares a picture of `nitro picture` with the text of its run: `drawings.py [--record] PICTURE TEXT`.

It stands apart from the program: it reads the SVG, and works out from the text what the picture must say. With --record the
picture is that of a record, drawn with the names of its script: each of its lines ends with who is paid. It looks that

- each entry has its mark, with its line of the text, unless the picture says that marks are left out; the payees of a record
  add up to the text's lines `held` and `paid`;
- each channel has its lane, with the bands that the replies make, and each person has a row;
- at the right edge each layer of an area is as high as the line `held` or `paid` of the text says, by the area's scale;
- the steps of a scale are 1, 2 or 5 with zeros, at most five fit, and no further one would;
- each layer is in the key of its area, with its colour;
- the legend has the signs that are in the picture, and no other; each caller that it names is a person of the text;
- an arrow has its amount, unless the amount before it is in the way;
- nothing runs past an edge, and no word of a lane reaches the text on the right;
- colours of layers next to each other differ in lightness, and are light or dark enough for their text.
"""
import math
import re
import sys
import xml.etree.ElementTree as tree

LEFT, RIGHT, PANEL, HEIGHT, TOP = 150, 996, 1020, 150, 178
SIGNS = {"open, with the recorded turn": "open", "challenged": "challenged", "final": "final", "the time is set": "time",
         "pays": "arrow", "pays, receiver unknown": "arrow untold", "refused": "hollow"}
WIDTHS = {"heading": 11.5, "strong": 7.6, "warning": 6.8}
wrong = []


def want(holds, what, *more):
    if not holds:
        wrong.append(" ".join([what, *map(str, more)]))


class Shape:
    def __init__(self, element):
        self.tag = element.tag.split("}")[1]
        self.looks = element.get("class", "")
        title = element.find("{http://www.w3.org/2000/svg}title")
        self.title = "" if title is None else title.text or ""
        self.text = element.text or ""
        self.get = lambda name: int(element.get(name))
        self.anchor = element.get("text-anchor", "start")
        turned = re.match(r"rotate\((-?\d+)", element.get("transform", ""))
        self.turn = math.radians(int(turned[1])) if turned else 0
        if self.tag == "polygon":
            self.points = [tuple(map(int, p.split(","))) for p in element.get("points").split()]

    def corners(self):
        """What the shape takes up, as points: of a text its two ends, by a mean width of letters."""
        if self.tag == "line":
            return [(self.get("x1"), self.get("y1")), (self.get("x2"), self.get("y2"))]
        if self.tag == "rect":
            x, y = self.get("x"), self.get("y")
            return [(x, y), (x + self.get("width"), y + self.get("height"))]
        if self.tag == "circle":
            x, y, r = self.get("cx"), self.get("cy"), self.get("r")
            return [(x - r, y - r), (x + r, y + r)]
        if self.tag == "polygon":
            return self.points
        width = len(self.text) * WIDTHS.get(self.looks, 6.1)
        starts = {"start": 0, "middle": -width / 2, "end": -width}[self.anchor]
        x, y = self.get("x"), self.get("y")
        return [(x + d * math.cos(self.turn), y + d * math.sin(self.turn)) for d in (starts, starts + width)]


def entries_of(text):
    """The entries, each as its words, and the other lines as theirs."""
    lines = [line.split(" ") for line in text.splitlines()]
    return [w for w in lines if w[0].isdigit()], [w for w in lines if not w[0].isdigit()]


def check_marks(shapes, entries, is_record, is_thinned):
    lines = {}
    for mark in shapes:
        if mark.tag == "circle" and mark.title:
            line, payee = re.fullmatch(r"(.*?)( to (?:person|channel) \w+)?", mark.title).groups()
            want((payee is not None) == (is_record and " ok paid " in line), "who is paid, in", mark.title)
            want(line not in lines, "two marks of", line)
            lines[line] = mark
    for words in entries:
        want(" ".join(words) in lines or is_thinned, "no mark of", " ".join(words))
        if " ".join(words) in lines:
            mark = lines.pop(" ".join(words))
            colour = 0 if words[1] == "0" else (int(words[1]) - 1) % 7 + 1
            look = "hollow" if "no" in words[2:] else "full"
            want(mark.looks == "mark k%d %s" % (colour, look), "the look of the mark of", " ".join(words))
    for line in lines:
        want(False, "a mark of no entry:", line)


def check_payees(shapes, ends):
    """What goes to whom by the marks' lines is what the text says of the end."""
    sums = {}

    def move(kind, name, asset, amount): sums[kind, name, asset] = sums.get((kind, name, asset), 0) + amount

    for words in (mark.title.split(" ") for mark in shapes if mark.tag == "circle" and mark.title):
        if "ok" in words and words[2] == "deposit":
            move("channel", words[3], words[4], int(words[6]))
        if "paid" in words:
            amount, asset = int(words[words.index("paid") + 1]), words[5 if words[2] == "claim" else 4]
            move("channel", words[3], asset, -amount)
            move(words[-2], words[-1], asset, amount)
    wanted = {({"held": "channel", "paid": "person"}[w[0]], w[1], w[2]): int(w[3]) for w in ends if w[0] in ("held", "paid")}
    want({key: n for key, n in sums.items() if n} == wanted, "by the marks:", sums, "and by the text:", wanted)


def check_legend(shapes, entries, ends):
    head = [s for s in shapes if s.tag == "text" and 60 < s.get("y") < 134 and s.looks == "plain"]
    body = [s for s in shapes if not s.title == "" or s.looks in ("time",)]
    there = {s.looks for s in body} | ({"hollow"} if any(s.looks.endswith("hollow") for s in body) else set())
    signs = [s.text for s in head if s.get("y") == 90]
    for text, look in SIGNS.items():
        want((text in signs) == (look in there), "the legend's sign", text)
    want(set(signs) <= set(SIGNS), "signs of the legend:", signs)
    callers = list(dict.fromkeys(int(words[1]) for words in entries))
    names = [w[1] for w in ends if w[0] == "premises"]
    people = sorted(c for c in callers if 0 < c < 101)
    known = dict(zip(people, names)) if len(people) == len(names) else {}
    said = ["the script" if c == 0 else known.get(c, "person %d" % c) if c < 101 else "cast %d" % c for c in callers]
    shown = [s.text for s in head if s.get("y") == 114]
    want(shown == said[:len(shown)] and len(shown) >= min(len(said), 8), "callers of the legend:", shown, "and not", said)


def short(name): return name if len(name) <= 16 else name[:10] + ".."


def bands_of(entries, channel):
    """The states of a channel one after the other, from its first call on."""
    bands, until, turn = [], None, ""
    for words in entries:
        if words[2] == "time" and words[4] == "ok" and until is not None and until <= int(words[6]):
            until = None
            bands.append("final" + turn)
        elif words[2] != "time" and words[3] == channel:
            if "ok" not in words[3:] or words[2] not in ("challenge", "respond", "refute", "checkpoint", "conclude"):
                bands = bands or ["open"]
            else:
                word, number = words[-2:]
                turn = ", turn " + (words[4] if word == "until" else number)
                until = int(number) if word == "until" else None
                bands.append(("challenged until " + number if word == "until" else word) + turn)
    return [band for at, band in enumerate(bands) if at == 0 or band != bands[at - 1]]


def check_lanes(shapes, entries, ends):
    called = [words[at] for words in entries if words[2] != "time" for at in ((3, 4) if words[2] == "claim" else (3,))]
    channels = list(dict.fromkeys(called + [w[1] for w in ends if w[0] == "held"]))
    persons = list(dict.fromkeys([w[1] for w in ends if w[0] == "premises"] + [w[1] for w in ends if w[0] == "paid"]))
    rows = [s for s in shapes if s.tag == "text" and s.looks == "strong" and s.get("x") == LEFT - 10]
    if entries and len(channels) <= 24:
        want([s.text for s in rows] == [short(name) for name in channels + persons], "the lanes", [s.text for s in rows])
        for row, channel in zip(rows, channels):
            bands = [s.title for s in shapes if s.tag == "rect" and s.title and s.get("y") == row.get("y") - 11]
            drawn = bands_of(entries, channel) or ["open"]
            want(bands == drawn, "the bands of", channel, bands, "and not", drawn)


def check_arrows(shapes):
    ends = {}
    for arrow in (s for s in shapes if s.tag == "line" and s.looks.startswith("arrow") and s.title):
        amount = re.search(r" ok paid (\d+)", arrow.title)[1]
        # an arrow up begins above its band, but for that of a channel that pays itself
        words = arrow.title.split()
        is_above = arrow.get("y2") < arrow.get("y1") and words[-2:] != ["channel", words[3]]
        x, bottom = arrow.get("x1"), arrow.get("y1") + (31 if is_above else 0)
        near = [s for s in shapes if s.looks == "word" and s.tag == "text" and s.get("x") == x + 4
                and s.get("y") == bottom + 12 and s.text == amount]
        if near:
            ends[bottom] = x + 4 + 7 * len(amount)
        else:
            want(x + 4 < ends.get(bottom, 0) or x + 4 + 7 * len(amount) >= PANEL, "no amount at the arrow of", arrow.title)


def check_area(shapes, asset, deposited, ends):
    """The shapes of one area, in order: its layers, its scale, its names and its key."""
    labels = [(int(float(s.text)), s.get("y") - 4) for s in shapes
              if s.tag == "text" and s.looks == "small" and s.anchor == "end" and re.fullmatch(r"\d+(e15)?", s.text)]
    want(labels and labels[0][0] == 0, "the scale of asset", asset)
    bottom = labels[0][1]
    for amount, y in labels:
        want(abs(amount * HEIGHT / max(deposited, 1) - (bottom - y)) < 1.01, "the place of", amount, "of asset", asset)
        want(any(s.looks == "grid" and s.get("y1") == s.get("y2") == y for s in shapes), "a line at", amount)
    if len(labels) > 1:
        step = labels[1][0]
        want(re.fullmatch("[125]0*", str(step)) and [n for n, _ in labels] == [step * k for k in range(len(labels))]
             and len(labels) <= 6 and deposited - labels[-1][0] < step, "the steps of asset", asset)
    layers = {s.title: s for s in shapes if s.tag == "polygon"}
    for word, start in (("held", "held by "), ("paid", "paid to ")):
        for name, amount in ((w[1], int(w[3])) for w in ends if w[0] == word and w[2] == asset):
            layer = layers.get(start + name)
            if layer is None:
                want("paid, receiver unknown" in layers or amount * HEIGHT < 2 * deposited, "a layer", start + name)
                continue
            at_edge = [y for x, y in layer.points if x == RIGHT]
            if "paid, receiver unknown" not in layers:
                want(abs((max(at_edge) - min(at_edge)) - amount * HEIGHT / deposited) < 1.01, "the layer", start + name)
    swatches = [s for s in shapes if s.tag == "rect"]
    for title, layer in layers.items():
        want(min(x for x, _ in layer.points) == LEFT and max(x for x, _ in layer.points) == RIGHT, "the edges of", title)
        text = title[:8] + short(title[8:]) if title[4] == " " else title
        keys = [s for s in shapes if s.tag == "text" and s.text == text and s.get("y") > bottom]
        want(len(keys) >= 1, "no key of", title)
        want(any(r.looks == layer.looks and r.get("x") == k.get("x") - 24 and r.get("y") == k.get("y") - 11
                 for r in swatches for k in keys), "the colour in the key of", title)


def check_edges(shapes, width, height):
    for shape in shapes:
        for x, y in shape.corners():
            want(0 <= x <= width and 0 <= y <= height, "past the edge:", shape.tag, shape.looks, shape.text or shape.title)
            if shape.tag == "text" and shape.get("x") < RIGHT and shape.get("y") > 130 and shape.looks != "strong":
                want(x < PANEL, "in the text on the right:", shape.text)


def light_of(colour):
    parts = [int(colour[i:i + 2], 16) / 255 for i in (1, 3, 5)]
    return sum(k * (c / 12.92 if c <= 0.03928 else ((c + 0.055) / 1.055) ** 2.4) for k, c in zip((0.2126, 0.7152, 0.0722), parts))


def lightness(colour): return 116 * light_of(colour) ** (1 / 3) - 16


def check_colours(style):
    """Colours next to each other differ by at least 9 of 100 in lightness, any two of a kind by 4.5; text has a contrast of 4.5."""
    for part, ink in zip(style.split("@media"), ("#1b2430", "#e8edf3")):
        want(ink in part, "the colour of text", ink)
        for kind in "hp":
            found = re.findall(r"\.%s\d\{fill:(#[0-9a-f]{6})\}" % kind, part)
            want(len(found) == 6, "colours of", kind)
            for i, colour in enumerate(found):
                high, low = sorted((light_of(colour), light_of(ink)), reverse=True)
                want((high + 0.05) / (low + 0.05) >= 4.5, "text on", colour)
                for j in range(i):
                    least = 9 if i - j in (1, 5) else 4.5
                    want(abs(lightness(colour) - lightness(found[j])) >= least, "colours alike:", colour, found[j])


def main(arguments):
    is_record = arguments[0] == "--record"
    picture, text = arguments[1:] if is_record else arguments
    root = tree.parse(picture).getroot()
    shapes = [Shape(e) for e in root if "class" in e.attrib and e.get("class") != "paper"]
    entries, ends = entries_of(open(text).read())
    note = " ".join(s.text for s in shapes if s.tag == "text" and s.get("y") == 58)
    check_marks(shapes, entries, is_record, "Marks are thinned" in note)
    if is_record and "Marks are thinned" not in note:
        check_payees(shapes, ends)
    check_legend(shapes, entries, ends)
    check_lanes(shapes, entries, ends)
    check_arrows(shapes)
    check_edges(shapes, int(root.get("width")), int(root.get("height")))
    check_colours("".join(e.text for e in root if e.tag.endswith("style")))
    heads = [i for i, s in enumerate(shapes) if re.match(r"Asset \d+: ", s.text)]
    ends_at = [i for i, s in enumerate(shapes) if s.text == "Who ended with what"]
    for at, to in zip(heads, heads[1:] + ends_at):
        _, asset, deposited = shapes[at].text.replace(":", "").split(" ")[:3]
        if entries:
            check_area(shapes[at:to], asset, int(deposited), ends)
    for line in wrong:
        print("%s: %s" % (picture, line))
    return 1 if wrong else 0


if __name__ == "__main__":
    sys.exit(main(sys.argv[1:]))

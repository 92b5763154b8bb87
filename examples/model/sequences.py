#!/usr/bin/env python3
"""Sequence diagrams of plays of the model, one SVG for light and dark: `sequences.py NAME`, with a name of `PICTURES`.

Each arrow is a message or a call that the model sent or entered, in its order; so a picture shows what nodes do.
"""
import json
import os
import sys

from play import Play, outcome_of
from values import Guarantee

EXAMPLES = os.path.join(os.path.dirname(os.path.abspath(__file__)), "..")
WIDTH, LEFT, TOP, ROW = 960, 250, 92, 30
CHAIN = "adjudicator"
STYLE = """@media (prefers-color-scheme:dark){
.paper{fill:#11161d}.ink{fill:#e8edf3}.small{fill:#a3b0bf}.box{stroke:#66758a}
.person{fill:#232c37}.chain{fill:#57461a}.rule{stroke:#66758a}.cut{stroke:#66758a}
.sent{stroke:#e8edf3}.tip{fill:#e8edf3}.call{stroke:#f3d98b}.called{fill:#f3d98b}
}"""

# The title, the example, its first and last step, and the words before some arrows, by the arrow's number from 0.
PICTURES = {
    "open": ("A and B open a direct channel C with 5 and 3", "payment.json", 4, 5,
             {0: ("both sign the outcome",), 2: ("each deposits its part",), 4: ("both sign again:", "it is funded")}),
    "pay": ("A pays B 2, and B pays A 1, in the channel C", "payment.json", 6, 9,
            {0: ("A pays 2",), 1: ("B pays 1",)}),
    "close": ("A and B close the channel C", "payment.json", 10, 11,
              {0: ("both sign a final state",), 2: ("one concludes with it",), 3: ("each is paid",)}),
    "virtual": ("A and B open the virtual channel X through the hub", "intermediary.json", 14, 15,
                {0: ("a first round of the two", "guarantors GA and GB, of the", "joint channel J, and of X"),
                 9: ("each ledger channel votes", "to set 5 aside for its", "guarantor, and repeats it"),
                 14: ("a second round of J:", "both ledger channels back it"),
                 18: ("J votes to owe X what it", "owed A and B"),
                 21: ("J repeats the outcome;", "a second round of X:", "it is funded")}),
}


class Traced(Play):
    """A play that notes what is sent and entered, by whom."""

    def __init__(self):
        super().__init__(("plain",))
        self.notes, self.on = [], False

    def _collect(self, node):
        if self.on:
            for to, message in node.outbox:
                last = self.notes[-1] if self.notes else None
                if last and last[0] == node.me and last[2] == message:
                    last[1].append(to)
                else:
                    self.notes.append((node.me, [to], message))
        super()._collect(node)

    def _round(self):
        before = len(self.adjudicator.history)
        super()._round()
        if self.on:
            names = {node.number: name for name, node in self.nodes.items()}
            self.notes += [(names[entry.by], [CHAIN], entry) for entry in self.adjudicator.history[before:]]


def amounts(outcome):
    """An outcome in a few words."""
    asset = outcome[0]
    if isinstance(asset, Guarantee):
        return f"pays for {asset.target}: " + ", then ".join(asset.places)
    return ", ".join(f"{to} {amount}" for to, amount in asset.items)


def words(message):
    """What is written at an arrow."""
    if hasattr(message, "call"):
        op, reply = message.call.words().split(), message.reply.words().split()
        parts = {"deposit": lambda: f"deposit {op[4]}, then it holds {reply[2]}",
                 "conclude": lambda: f"conclude with {op[1]} {op[2]}",
                 "transfer": lambda: f"transfer: it is paid {reply[2]}"}
        return parts[op[0]]()
    state = message.state
    if state.proposal:
        return f"{message.channel} {state.turn}: a vote for {amounts(state.proposal)}"
    return f"{message.channel} {state.turn}{' final' if state.final else ''}: {amounts(state.outcome)}"


def tip(x, y, right, name):
    back = x - 8.2 if right else x + 8.2
    colour = "#8a6100" if name == "called" else "#1b2430"
    points = f"{x:.1f},{y:.1f} {back:.1f},{y - 3.7:.1f} {back:.1f},{y + 3.7:.1f}"
    return f'<polygon class="{name}" points="{points}" fill="{colour}"/>'


def arrow(y, places, sender, receivers, called):
    """Lines from the sender's lane to the outermost receivers, with a tip at each."""
    line, point, colour = ("call", "called", "#8a6100") if called else ("sent", "tip", "#1b2430")
    found, start = [], places[sender]
    for right in (False, True):
        ends = [places[it] for it in receivers if (places[it] > start) == right]
        if ends:
            far = max(ends) if right else min(ends)
            found.append(f'<line class="{line}" x1="{start}" y1="{y}" x2="{far - 6 if right else far + 6}" y2="{y}" '
                         f'stroke="{colour}" stroke-width="1.6"/>')
            found += [tip(it, y, right, point) for it in ends]
    return found


def label_place(places, sender, receivers):
    """The middle between the sender's lane and the next one toward its nearest receiver."""
    start = places[sender]

    def far(x):
        return abs(x - start)

    right = min((places[it] for it in receivers), key=far) > start
    return (start + min((x for x in places.values() if x != start and (x > start) == right), key=far)) // 2


def lanes(people, places, bottom):
    found = []
    for name in people:
        x, who = places[name], "chain" if name == CHAIN else "person"
        half = 46 if name == CHAIN else 30
        fill = "#fbeecb" if name == CHAIN else "#eef1f5"
        found += [
            f'<line class="rule" x1="{x}" y1="98" x2="{x}" y2="{bottom}" stroke="#8a96a6" stroke-width="1.2" '
            f'stroke-dasharray="2 4"/>',
            f'<rect class="{who} box" x="{x - half}" y="72" width="{2 * half}" height="28" rx="14" fill="{fill}" '
            f'stroke="#8a96a6" stroke-width="1.2"/>',
            f'<text class="ink" x="{x}" y="91" font-size="14" fill="#1b2430" font-weight="bold" '
            f'text-anchor="middle">{name}</text>']
    return found


def drawn(title, notes, people, captions):
    places = {name: LEFT + place * (WIDTH - LEFT - 70) // (len(people) - 1) for place, name in enumerate(people)}
    bottom = TOP + ROW * len(notes) + 32
    calls = "; an amber one is a call" if CHAIN in people else ""
    parts = [f'<svg xmlns="http://www.w3.org/2000/svg" role="img" width="{WIDTH}" height="{bottom + 20}" '
             f'viewBox="0 0 {WIDTH} {bottom + 20}" font-family="Helvetica, Arial, sans-serif">',
             f"<title>{title}: {len(notes)} arrows, in their order from above</title>", "<style>", STYLE, "</style>",
             f'<rect class="paper" x="0" y="0" width="{WIDTH}" height="{bottom + 20}" rx="10" fill="#ffffff"/>',
             f'<text class="ink" x="24" y="34" font-size="19" fill="#1b2430" font-weight="bold">{title}</text>',
             f'<text class="small" x="24" y="54" font-size="12" fill="#4f5b6b">an arrow is a signed state '
             f'with its channel, turn and outcome{calls}</text>']
    parts += lanes(people, places, bottom)
    for number, (sender, receivers, message) in enumerate(notes):
        y = TOP + ROW * (number + 1) + 12
        called = CHAIN in receivers
        parts += arrow(y, places, sender, receivers, called)
        x = label_place(places, sender, receivers)
        parts.append(f'<text class="ink" x="{x}" y="{y - 6}" font-size="12" fill="#1b2430" '
                     f'text-anchor="middle">{words(message)}</text>')
    for number, lines in captions.items():
        y = TOP + ROW * (number + 1) - 6
        if number:
            parts.append(f'<line class="cut" x1="24" y1="{y - 4}" x2="{WIDTH - 24}" y2="{y - 4}" stroke="#c9d1db" '
                         f'stroke-width="1"/>')
        parts += [f'<text class="small" x="24" y="{y + 18 + 16 * place}" font-size="12" fill="#4f5b6b">{line}</text>'
                  for place, line in enumerate(lines)]
    return "\n".join(parts + ["</svg>", ""])


def picture(name):
    title, example, first, last, captions = PICTURES[name]
    with open(os.path.join(EXAMPLES, example), encoding="ascii") as file:
        steps = json.load(file)["steps"]
    play = Traced()
    for number, step in enumerate(steps, 1):
        play.on = first <= number <= last
        play.take(step)
    people = list(play.nodes)
    if any(CHAIN in note[1] for note in play.notes):
        people.append(CHAIN)
    return drawn(title, play.notes, people, captions)


if __name__ == "__main__":
    if len(sys.argv) != 2 or sys.argv[1] not in PICTURES:
        sys.exit("usage: sequences.py " + "|".join(PICTURES))
    print(picture(sys.argv[1]), end="")

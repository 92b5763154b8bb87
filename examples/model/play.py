#!/usr/bin/env python3
"""Plays a script over the model and prints what comes of it: `play.py ROUTE.. < SCRIPT`.

The words are the routes of the script's `open_virtual` steps in their order: `plain` (also where a word is missing)
opens a payment channel on direct ledgers, `ledger` a virtual ledger, `onward` a payment channel that may stand on one.
"""
import json
import os
import sys

from adjudicator import Adjudicator
from calls import Challenge, Checkpoint, Claim, Conclude, Deposit, Refute, Respond, Time, Transfer
from node import PLAIN, Node
from premises import in_time
from values import NO_PLACE, Allocation, Channel, Guarantee, Signature, Signed, State, chain_of
from worth import share

sys.path.insert(1, os.path.join(os.path.dirname(os.path.abspath(__file__)), "..", "hostile"))
import rules  # noqa: E402


def outcome_of(listed):
    """The outcome that a script writes."""
    return tuple(Guarantee(it["asset"], it["target"], tuple(it["list"])) if "target" in it else
                 Allocation(it["asset"], tuple((to, amount) for to, amount in it["items"])) for it in listed)


class Play:
    """The world of a script: all steps change it, and the text tells of it."""

    def __init__(self, routes=(), notice=None):
        self.people, self.channels, self.states, self.nodes, self.watchers = {}, {}, {}, {}, {}
        self.adjudicator = Adjudicator(self.people)
        self.routes, self.post, self.refused, self.exits, self.step = list(routes), [], [], {}, 0
        self.notice = notice or (lambda node: None)

    def take(self, step):
        """Does the next step of the script."""
        self.step += 1
        getattr(self, "_" + step["do"])({key: value for key, value in step.items() if key != "do"})

    # ---- declarations and states

    def _person(self, it):
        number = len(self.people) + 1
        self.people[it["name"]] = number
        if it["node"]:
            self.nodes[it["name"]] = Node(it["name"], number, it["h"], self.adjudicator)
            self.watchers[it["name"]] = it["watchers"]

    def _channel(self, it):
        self.channels[it["name"]] = Channel(it["name"], tuple(it["people"]), it["app"], it["duration"])

    def _sign(self, it):
        state = State(it["turn"], it["final"], outcome_of(it["outcome"]), it["votes"], outcome_of(it["proposal"]))
        self.states[it["name"]] = Signed(it["channel"], state, Signature(it["by"], it["channel"], state))

    def _catch(self, it):
        record = self.nodes[it["from"]].records.get(it["channel"])
        found = record.signed.get(it["turn"]) if record else None
        if found:
            self.states[it["name"]] = found

    # ---- entries

    def _enter(self, call):
        self.adjudicator.enter(0, call)

    def _deposit(self, it):
        self._enter(Deposit(it["channel"], it["asset"], it["expected"], it["amount"]))

    def _time(self, it):
        self._enter(Time(it["to"]))

    def _chain(self, it):
        """The chain of a step, from those of its states that there are."""
        found = [self.states[name] for name in it["chain"] if name in self.states]
        return chain_of(self.channels[it["channel"]], found)

    def _challenge(self, it):
        chain, by = self._chain(it), it["by"]
        place = chain.channel.position(by)
        place = NO_PLACE if place is None else place
        signature = Signature(by, chain.channel.name, chain.last(), place) if chain.states else None
        self._enter(Challenge(chain, place, signature))

    def _checkpoint(self, it):
        self._enter(Checkpoint(self._chain(it)))

    def _conclude(self, it):
        self._enter(Conclude(self._chain(it)))

    def _has(self, *names):
        return all(name in self.states for name in names)

    def _respond(self, it):
        if self._has(it["from"], it["state"]):
            self._enter(Respond(self.channels[it["channel"]], self.states[it["from"]].state, self.states[it["state"]]))

    def _refute(self, it):
        if self._has(it["state"]):
            self._enter(Refute(self.channels[it["channel"]], self.states[it["state"]]))

    def _transfer(self, it):
        if self._has(it["state"]):
            self._enter(Transfer(it["channel"], self.states[it["state"]].state.outcome, it["asset"], it["index"]))

    def _claim(self, it):
        if self._has(it["state"], it["target_state"]):
            given, owed = (self.states[it[key]].state.outcome for key in ("state", "target_state"))
            self._enter(Claim(it["guarantor"], given, it["target"], owed, it["asset"], it["position"]))

    # ---- messages

    def _send(self, it):
        if self._has(it["state"]):
            self.post.append((it["to"], self.states[it["state"]]))

    def _drop(self, it):
        self.post = [(to, message) for to, message in self.post if to != it["to"]]

    def _collect(self, node):
        """What a node sent is on its way to the others' nodes."""
        self.post += [(to, message) for to, message in node.outbox if to in self.nodes]
        node.outbox = []

    # ---- commands

    def _command(self, who, act):
        """Gives a command to nodes, one after another, each of which first sees the history."""
        order, found = list(self.people), []
        for person in who:
            node = self.nodes[person]
            node.see()
            refusal = act(node)
            self._collect(node)
            self.notice(node)
            if refusal:
                node.tally["command " + refusal.name] += 1
                found.append((order.index(person), f"command {self.step} {person} {refusal.words()}"))
        self.refused += [line for _, line in sorted(found, key=lambda it: it[0])]

    def _open(self, it):
        self._command(it["who"], lambda node: node.open(self.channels[it["channel"]], outcome_of(it["outcome"])))

    def _open_on(self, it):
        channel, amounts = self.channels[it["channel"]], tuple(it["amounts"])
        self._command(it["who"], lambda node: node.open_on(it["ledger"], channel, it["asset"], amounts))

    def _open_virtual(self, it):
        route = self.routes.pop(0) if self.routes else PLAIN
        guarantors = tuple(self.channels[name] for name in it["guarantors"])
        joint, channel = self.channels[it["joint"]], self.channels[it["channel"]]
        self._command(it["who"], lambda node: node.open_virtual(
            route, tuple(it["ledgers"]), guarantors, joint, channel, it["asset"], tuple(it["amounts"])))

    def _pay(self, it):
        self._command([it["who"]], lambda node: node.pay(it["channel"], it["asset"], it["amount"]))

    def _close(self, it):
        self._command(it["who"], lambda node: node.close(it["channel"]))

    def _settle(self, it):
        self._command(it["who"], lambda node: node.settle(it["channel"]))

    def _abandon(self, it):
        self._command(it["who"], lambda node: node.abandon(it["channel"]))

    def _resend(self, it):
        self._command(it["who"], lambda node: node.resend(it["channel"]))

    def _exit(self, it):
        def leave(node):
            node.exit()
            if node.me not in self.exits:
                self.exits[node.me] = {asset: share(node, asset) for asset in self.adjudicator.deposits}
        self._command(it["who"], leave)

    # ---- rounds

    def _rounds(self, it):
        for _ in range(it["count"]):
            self._round()

    def _round(self):
        """All nodes act one after another, and then their watchers."""
        handed, self.post = self.post, []
        for person, node in self.nodes.items():
            node.see()
            for to, message in handed:
                if to == person:
                    node.handle(message)
            calls = node.tick()
            self._collect(node)
            self.notice(node)
            for call in calls:
                self.adjudicator.enter(node.number, call)
        for person, node in self.nodes.items():
            for _ in range(self.watchers[person]):
                for call in node.watch():
                    self.adjudicator.enter(node.number, call)

    # ---- text

    def text(self):
        """What is printed at the end."""
        lines = [entry.words() for entry in self.adjudicator.history] + self.refused + self.tail()
        return "".join(line + "\n" for line in lines)

    def tail(self):
        """The lines that sum up."""
        book = self.adjudicator
        lines = [f"end entries {len(book.history)} now {book.now}"]
        for asset in sorted(book.deposits):
            held, paid = (sum(amount for (_, it), amount in purse.items() if it == asset)
                          for purse in (book.balances, book.payouts))
            lines.append(f"asset {asset} deposited {book.deposits[asset]} held {held} paid {paid}")
        lines += [f"held {name} {asset} {amount}" for (name, asset), amount in book.balances.items() if amount]
        lines += [f"paid {name} {asset} {amount}" for (name, asset), amount in book.payouts.items()]
        return lines + [line for node in self.nodes.values() for line in self._lines_of(node)]

    def _lines_of(self, node):
        """A person's premises and shares, when its node has seen everything."""
        node.see()
        word = "yes" if in_time(self.adjudicator.history, node.journal) else "no"
        assets, left = sorted(self.adjudicator.deposits), self.exits.get(node.me)
        lines = [f"premises {node.me} unforged yes distinct yes intime {word}"]
        lines += [f"person {node.me} {asset} paid {node.paid(asset)} share {share(node, asset)}" for asset in assets]
        if left is not None:
            lines += [f"exit {node.me} {asset} share {left.get(asset, 0)}" for asset in assets]
        return lines


def play(steps, routes=(), notice=None):
    """The play of a script that keeps the rules."""
    world = Play(routes, notice)
    for step in steps:
        world.take(step)
    return world


def main(routes):
    data = sys.stdin.buffer.read()
    broken = rules.first_broken(data)
    if broken:
        print(broken)
        return 3
    sys.stdout.write(play(json.loads(data)["steps"], routes).text())
    return 0


if __name__ == "__main__":
    sys.exit(main(sys.argv[1:]))

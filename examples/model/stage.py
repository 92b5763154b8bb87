"""The stage on which a random play is made: the script grows step by step while the model plays it.

People without nodes have shadows here: nodes of the model that tell what an honest person would sign next, of which
the script makes `sign` and `send` steps. So a liar can go along until it lies.
"""
from calls import Conclude, Deposit, Transfer
from node import Node
from play import Play
from values import Guarantee, State

STEPS, ROUNDS = 160, 560


def written(outcome):
    """An outcome as a script writes it."""
    return [{"asset": it.asset, "target": it.target, "list": list(it.places)} if isinstance(it, Guarantee) else
            {"asset": it.asset, "items": [[to, amount] for to, amount in it.items]} for it in outcome]


class Shadow(Node):
    """What a person without a node would do with one."""

    def __init__(self, me, number, adjudicator):
        super().__init__(me, number, 20, adjudicator)
        self.inbox = []


class World(Play):
    """A play whose nodes' messages also reach the shadows."""

    def __init__(self, routes, notice):
        super().__init__(routes, notice)
        self.shadows = {}

    def _collect(self, node):
        for to, message in node.outbox:
            if to in self.shadows:
                self.shadows[to].inbox.append(message)
        super()._collect(node)


class Stage:
    def __init__(self, random, notice=None):
        self.random, self.steps, self.routes = random, [], []
        self.world = World([], notice)
        self.named, self.count, self.rounds_done, self.left = {}, 0, 0, {}
        self.miserly = False

    # ---- steps

    def is_full(self):
        return len(self.steps) >= STEPS or self.rounds_done >= ROUNDS

    def do(self, word, **keys):
        step = {"do": word, **keys}
        self.steps.append(step)
        self.world.take(step)

    def rounds(self, count):
        """Plays rounds, in one step with rounds just before."""
        self.rounds_done += count
        if self.steps and self.steps[-1]["do"] == "rounds" and self.steps[-1]["count"] + count <= 64:
            self.steps[-1]["count"] += count
            for _ in range(count):
                self.world._round()
        else:
            self.do("rounds", count=count)

    def open_virtual(self, route, who, step):
        self.routes.append(route)
        self.world.routes.append(route)
        self.do(step["do"], who=who, **{key: value for key, value in step.items() if key != "do"})

    def fresh(self, letter):
        self.count += 1
        return f"{letter}{self.count}"

    def person(self, name, seed, height, node, watchers):
        self.do("person", name=name, seed=seed, h=height, node=node, watchers=watchers)
        if not node:
            self.left[name] = 2**height
            self.world.shadows[name] = Shadow(name, len(self.world.people), self.world.adjudicator)

    # ---- states

    def sign(self, liar, channel, state):
        """The name of a state that a liar signs, or None where its key is spent."""
        key = liar, channel, state
        if key not in self.named or self.random.random() < 0.05:
            if not self.left[liar]:
                return None
            self.left[liar] -= 1
            name = self.fresh("s")
            self.do("sign", name=name, channel=channel, by=liar, turn=state.turn, final=state.final,
                    outcome=written(state.outcome), votes=state.votes, proposal=written(state.proposal))
            self.named[key] = name
        return self.named[key]

    def catch(self, person, channel, turn):
        """The name of a state of a node, also where there is none."""
        name = self.fresh("c")
        self.do("catch", name=name, **{"from": person}, channel=channel, turn=turn)
        record = self.world.nodes[person].records.get(channel)
        if record and turn in record.signed:
            self.named[person, channel, record.signed[turn].state] = name
        return name

    def name_of(self, signer, channel, state):
        """The name of a state that somebody signed, or None."""
        if (signer, channel, state) in self.named:
            return self.named[signer, channel, state]
        if signer in self.world.nodes:
            record = self.world.nodes[signer].records.get(channel)
            if record and record.signed.get(state.turn) and record.signed[state.turn].state == state:
                return self.catch(signer, channel, state.turn)
        return None

    def known_states(self, channel):
        """All that was signed in a channel: signers with states."""
        found = {(signer, state) for signer, name, state in self.named if name == channel}
        for person, node in self.world.nodes.items():
            record = node.records.get(channel)
            found |= {(person, it.state) for it in (record.signed.values() if record else ())}
        return sorted(found, key=lambda it: (it[1].turn, repr(it)))

    def names_of_chain(self, chain):
        """Names that make a chain, as far as they are known."""
        name, found = chain.channel.name, []
        for place, state in enumerate(chain.states):
            signers = [mark.signature.signer for mark in chain.marks if mark.place == place and mark.signature]
            signers = signers or [signer for signer, it in self.known_states(name) if it == state][:1]
            found += [self.name_of(signer, name, state) for signer in signers]
        return [it for it in found if it][:4]

    # ---- what liars do in place of their nodes

    def command_shadows(self, people, act):
        for person in people:
            if person in self.world.shadows:
                shadow = self.world.shadows[person]
                shadow.see()
                act(shadow)

    def play_liars(self, alter):
        """Each liar does what its node would do; `alter` may change what it sends: it gives the states to send."""
        for liar, shadow in self.world.shadows.items():
            shadow.see()
            inbox, shadow.inbox = shadow.inbox, []
            for message in inbox:
                shadow.handle(message)
            calls = shadow.tick()
            outbox, shadow.outbox = shadow.outbox, []
            for to, signed in outbox:
                self._hand_on(liar, to, signed, alter)
            for call in calls:
                if not (isinstance(call, Deposit) and self.miserly):
                    self._enter(liar, call)

    def _hand_on(self, liar, to, signed, alter):
        if to in self.world.shadows:
            self.world.shadows[to].inbox.append(signed)
        for state in alter(liar, signed.channel, signed.state):
            name = self.sign(liar, signed.channel, state)
            if name and to in self.world.nodes:
                self.do("send", to=to, state=name)

    def _enter(self, liar, call):
        """A call of a liar's shadow as a step."""
        if isinstance(call, Deposit):
            self.do("deposit", channel=call.channel, asset=call.asset, expected=call.expected, amount=call.amount)
        elif isinstance(call, Conclude):
            self.do("conclude", channel=call.chain.channel.name, chain=self.names_of_chain(call.chain))
        elif isinstance(call, Transfer):
            self.transfer(liar, call.channel, call.outcome, call.asset, call.index)

    def state_with(self, liar, channel, outcome):
        """The name of some state of the channel with an outcome; a liar signs one where there is none."""
        for signer, state in self.known_states(channel):
            if state.outcome == outcome:
                name = self.name_of(signer, channel, state)
                if name:
                    return name
        return None if liar is None else self.sign(liar, channel, _plain_state(outcome))

    def transfer(self, liar, channel, outcome, asset, index):
        name = self.state_with(liar, channel, outcome)
        if name:
            self.do("transfer", channel=channel, state=name, asset=asset, index=index)

    # ---- calm play

    def pulse(self):
        """Changes where anything moves."""
        world = self.world
        nodes = list(world.nodes.values()) + list(world.shadows.values())
        return sum(node.changes for node in nodes), len(world.adjudicator.history), len(world.post)

    def settle(self, most, alter):
        """Rounds, with the liars between, until nothing moves any more."""
        still, pulse = 0, self.pulse()
        for _ in range(most):
            if still == 3 or self.is_full():
                return
            self.rounds(1)
            self.play_liars(alter)
            still, pulse = (still + 1 if self.pulse() == pulse else 0), self.pulse()


def _plain_state(outcome):
    return State(0, False, outcome)

"""Which rule a script breaks first, by the tables of docs/SCRIPT.md, in another language than the program's.

`first_broken(bytes, race)` gives the line that `nitro run`, or `nitro race`, prints of a script that is refused, or None.
As there, a number that is too large for a double is no JSON text; arrays that stand in one another deeper than 127, which
aren't either, aren't looked for.
"""
import json
import re

MOST = 2**64 - 1
APPS = ("consensus", "payment", "fixed")


class Broken(Exception):
    """A step breaks a rule."""


SHAPE, NAME, LIMIT, NOT_IN_RACE = "2 Shape", "3 Name", "4 Limit", "6 NotInRace"


def demand(holds, rule):
    if not holds:
        raise Broken(rule)


# ---- JSON


def constant(text):
    raise ValueError(text)


def real(text):
    return constant(text) if float(text) in (float("inf"), float("-inf")) else None


def whole(digits):
    return real(digits) if digits[0] == "-" or len(digits) > 20 else int(digits)


def value_of(data):
    """The value of a JSON text, where None also stands for a number with a sign, a point or an exponent."""
    value = json.loads(data.decode("utf-8"), parse_int=whole, parse_float=real, parse_constant=constant)
    # (half of a pair of surrogates is no text)
    json.dumps(value, ensure_ascii=False).encode("utf-8")
    return value


# ---- kinds of values: each is the value, or Shape is broken


def number(value):
    demand(type(value) is int and value <= MOST, SHAPE)
    return value


def flag(value):
    demand(type(value) is bool, SHAPE)
    return value


def name(value):
    demand(type(value) is str and re.fullmatch("[A-Za-z][A-Za-z0-9_]{0,15}", value), SHAPE)
    return value


def digits(value):
    demand(type(value) is str and re.fullmatch("[0-9a-f]{64}", value), SHAPE)
    return value


def place(value):
    return digits(value) if type(value) is str and len(value) == 64 else name(value)


def app(value):
    demand(type(value) is str and value in APPS, SHAPE)
    return value


def array(value):
    demand(type(value) is list, SHAPE)
    return value


def many(kind):
    return lambda value: [kind(it) for it in array(value)]


def item(value):
    demand(type(value) is list and len(value) == 2, SHAPE)
    return name(value[0]), number(value[1])


def asset_outcome(value):
    demand(type(value) is dict, SHAPE)
    kinds = {"asset": number, "items": many(item)}
    if "items" not in value:
        kinds = {"asset": number, "target": name, "list": many(name)}
    return keyed(value, kinds)


def keyed(value, kinds):
    demand(set(value) == set(kinds), SHAPE)
    return {key: kind(value[key]) for key, kind in kinds.items()}


outcome = many(asset_outcome)
names = many(name)

FORMS = {
    "deposit": {"channel": place, "asset": number, "expected": number, "amount": number},
    "time": {"to": number},
    "person": {"name": name, "seed": digits, "h": number, "node": flag, "watchers": number},
    "channel": {"name": name, "people": names, "nonce": number, "app": app, "duration": number},
    "sign": {"name": name, "channel": name, "by": name, "turn": number, "final": flag, "outcome": outcome,
             "votes": number, "proposal": outcome},
    "challenge": {"channel": name, "chain": names, "by": name},
    "respond": {"channel": name, "from": name, "state": name},
    "refute": {"channel": name, "state": name},
    "checkpoint": {"channel": name, "chain": names},
    "conclude": {"channel": name, "chain": names},
    "transfer": {"channel": name, "state": name, "asset": number, "index": number},
    "claim": {"guarantor": name, "state": name, "target": name, "target_state": name, "asset": number,
              "position": number},
    "catch": {"name": name, "from": name, "channel": name, "turn": number},
    "send": {"to": name, "state": name},
    "drop": {"to": name},
    "open": {"who": names, "channel": name, "outcome": outcome},
    "open_on": {"who": names, "ledger": name, "channel": name, "asset": number, "amounts": many(number)},
    "open_virtual": {"who": names, "ledgers": names, "guarantors": names, "joint": name, "channel": name,
                     "asset": number, "amounts": many(number)},
    "pay": {"who": name, "channel": name, "asset": number, "amount": number},
    "close": {"who": names, "channel": name},
    "settle": {"who": names, "channel": name},
    "abandon": {"who": names, "channel": name},
    "resend": {"who": names, "channel": name},
    "exit": {"who": names},
    "rounds": {"count": number},
}


# ---- names, limits and digests, by what earlier steps declared


class Context:
    def __init__(self, race):
        self.race = race
        self.kinds, self.people, self.channels, self.used, self.rounds = {}, {}, {}, {}, 0

    def is_kind(self, kinds, *found):
        demand(all(self.kinds.get(it) in kinds for it in found), NAME)

    def knows(self, listed):
        """The names of an outcome are declared."""
        for it in listed:
            if "items" in it:
                self.is_kind(("person", "channel"), *(to for to, _ in it["items"]))
            else:
                self.is_kind(("channel",), it["target"])
                self.is_kind(("person", "channel"), *it["list"])

    def try_names(self, do, it):
        if do in ("person", "channel", "sign", "catch"):
            demand(it["name"] not in self.kinds, NAME)
        if do == "person":
            demand(it["seed"] not in (seed for seed, _, _ in self.people.values()), NAME)
        if do == "channel":
            self.is_kind(("person",), *it["people"])
            demand(len(set(it["people"])) == len(it["people"]), NAME)
        if do in ("sign", "challenge"):
            self.is_kind(("person",), it["by"])
            demand(not self.people[it["by"]][2], NAME)
        nodes = it.get("who", []) if do != "pay" else [it["who"]]
        nodes = nodes + ([it["from"]] if do == "catch" else []) + ([it["to"]] if do in ("send", "drop") else [])
        self.is_kind(("person",), *nodes)
        demand(all(self.people[node][2] for node in nodes), NAME)
        if do not in ("person", "channel"):
            if not (do == "deposit" and len(it["channel"]) == 64):
                self.is_kind(("channel",), *(it[key] for key in ("channel", "guarantor", "target", "ledger", "joint") if key in it))
            self.is_kind(("channel",), *it.get("ledgers", []), *it.get("guarantors", []))
            states = [it[key] for key in ("state", "target_state") if key in it] + it.get("chain", [])
            self.is_kind(("state",), *states, *([it["from"]] if do == "respond" else []))
        self.knows(it.get("outcome", []))
        self.knows(it.get("proposal", []))

    def try_limits(self, do, it):
        demand(it.get("asset", 0) < 2**32, LIMIT)
        demand(it.get("turn", 0) < 2**48, LIMIT)
        demand(it.get("index", 0) < 2**8 and it.get("position", 0) < 2**8, LIMIT)
        demand(len(it.get("chain", [])) <= 4, LIMIT)
        demand(all(len(it[key]) == 2 for key in ("ledgers", "guarantors", "amounts") if key in it), LIMIT)
        if do == "person":
            demand(it["h"] in (5, 10) and len(self.people) < 16, LIMIT)
            demand(1 <= it["watchers"] <= 4 if it["node"] else it["watchers"] == 0, LIMIT)
        if do == "channel":
            demand(2 <= len(it["people"]) <= 4 and (it["app"] != "payment" or len(it["people"]) == 2), LIMIT)
            demand(1 <= it["duration"] < 2**32 and len(self.channels) < 64, LIMIT)
        if do == "sign":
            demand(it["votes"] <= 3 and (it["votes"] > 0 or it["proposal"] == []), LIMIT)
        for listed in (it.get("outcome", []), it.get("proposal", [])):
            demand(fits(listed), LIMIT)
        if do in ("sign", "challenge"):
            demand(self.used[it["by"]] < 2 ** self.people[it["by"]][1], LIMIT)
        if do == "rounds":
            demand(1 <= it["count"] <= 64 and self.rounds + it["count"] <= 4096, LIMIT)

    def take(self, do, it):
        """Tries a step, and declares what it does."""
        self.try_names(do, it)
        self.try_limits(do, it)
        if do == "channel":
            fixed = (it["people"], it["nonce"], it["app"], it["duration"])
            demand(fixed not in self.channels.values(), NAME)
        demand(not self.race or (do != "time" and not (do == "channel" and it["duration"] == 1)), NOT_IN_RACE)
        if do == "person":
            self.people[it["name"]] = (it["seed"], it["h"], it["node"])
            self.used[it["name"]] = 0
        if do == "channel":
            self.channels[it["name"]] = fixed
        if do in ("sign", "challenge"):
            self.used[it["by"]] += 1
        if do in ("person", "channel", "sign", "catch"):
            self.kinds[it["name"]] = do if do in ("person", "channel") else "state"
        self.rounds += it.get("count", 0)


def fits(listed):
    """Whether an outcome keeps the limits of outcomes."""
    assets = [it["asset"] for it in listed]
    places = [[to for to, _ in it["items"]] if "items" in it else it["list"] for it in listed]
    return (
        len(assets) <= 4
        and all(it < 2**32 for it in assets)
        and all(a < b for a, b in zip(assets, assets[1:]))
        and all(len(it) <= 16 and len(set(it)) == len(it) for it in places)
        and all(sum(amount for _, amount in it.get("items", [])) <= MOST for it in listed)
    )


# ---- the whole


def written(value):
    """The word of a step and its values, of their kinds."""
    demand(type(value) is dict and type(value.get("do")) is str and value["do"] in FORMS, SHAPE)
    rest = {key: it for key, it in value.items() if key != "do"}
    return value["do"], keyed(rest, FORMS[value["do"]])


def first_broken(data, race=False):
    try:
        value = value_of(data)
    except (ValueError, RecursionError):
        return "script 0 1 NotJson"
    if type(value) is not dict or set(value) != {"steps"} or type(value["steps"]) is not list:
        return "script 0 2 Shape"
    if len(value["steps"]) > 4096:
        return "script 0 4 Limit"
    context = Context(race)
    for place_of_step, step in enumerate(value["steps"], 1):
        try:
            context.take(*written(step))
        except Broken as rule:
            return f"script {place_of_step} {rule}"
    return None

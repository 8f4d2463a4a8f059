"""A plain model of channels, two ends each, of nodes that have them, and of the scripts that drive them, written from
the rules of docs/PROTOCOL.md and docs/FORMATS.md alone: whole lists, no bytes, no keys. `report(script)` gives what
`lnlink sim` has to print, or the line that is refused. checks/fuzz compares the two.

The model asserts what has to hold of every script, over the lists of updates and the signatures of all ends of a node:
no message of an honest peer is refused but by 36, what a side holds as irrevocably committed begins what the other side
has signed, and a hook is called on each event once and in order. Of each HTLC that came in, at most one that goes out
for it is ever covered by a signature, and stays covered; the one that came in waits while it is held, and is removed
only as all that went out for it were, for good; and a fulfilment has its preimage. A script may break this by removing
an HTLC itself: of those only the last is asserted."""
from collections import defaultdict
from hashlib import sha256
import os
import re
import sys

sys.path.insert(0, os.path.dirname(os.path.abspath(__file__)))
from book_model import Book, CODES, HOLD, Htlc, Reading

REMOVALS = {"fulfil": "fulfilled", "fail": "failed", "malformed": "malformed"}


class Bad(Exception):
    """A script's line that isn't one."""


class Refused(Exception):
    """A refusal: its number, and the words that follow it."""

    def __init__(self, *numbers):
        self.numbers = numbers


def number(word, greatest=2**64 - 1):
    if not re.fullmatch(r"0|[1-9][0-9]*", word) or int(word) > greatest:
        raise Bad()
    return int(word)


def preimage(word):
    return bytes([number(word, 255)]) * 32


def digest(data):
    return sha256(data).digest()


def node(word):
    if not re.fullmatch(r"[A-Z]", word):
        raise Bad()
    return word


def end(word):
    if not word or not re.fullmatch(r"[A-Z]", word[0]):
        raise Bad()
    return word[0], number(word[1:], 99)


def code(word):
    if not re.fullmatch(r"[0-9a-f]{4}", word):
        raise Bad()
    return int(word, 16)


def lawful_code(word):
    """The code of a failure that hooks may answer."""
    if code(word) not in CODES:
        raise Bad()
    return code(word)


def short_id(word):
    parts = word.split("x")
    if len(parts) != 3:
        raise Bad()
    return tuple(number(part, most) for part, most in zip(parts, (2**24 - 1, 2**24 - 1, 2**16 - 1)))


def truncated(n):
    """How many bytes a number takes without leading zeros."""
    return (n.bit_length() + 7) // 8


def onion_size(amount, expiry, hops):
    """How many bytes the payloads take, each behind its length: types 2, 4, 6 for a hop, and 2, 4, 8 for the last."""
    if hops:
        amount, expiry = hops[-1]
    values = [(truncated(a), truncated(c), 8) for a, c in hops]
    values += [(truncated(amount), truncated(expiry), 32 + truncated(amount))]
    return sum(1 + sum(2 + len for len in it) for it in values)  # each length is below 253


class Onion:
    """What the hops of a route are told, from the next one on: amount, expiry, short channel id, payment data."""
    fault = bad = empty = False  # a script's onions can be opened and read

    def __init__(self, payloads):
        (self.amount, self.expiry, self.short_id, self.payment), *self.rest = payloads
        self.final = not self.rest

    def next_packet(self):
        return Onion(self.rest) if self.rest else None


def onion(amount, expiry, secret, hops):
    """Each hop, a short channel id, amount and expiry, is for the next node; the last node gets the last ones again."""
    last = hops[-1][1:] if hops else (amount, expiry)
    return Onion([(amt, cltv, short_id, None) for short_id, amt, cltv in hops] + [(*last, None, (secret, last[0]))])


def outcome(u):
    """What becomes of an HTLC by this removal."""
    values = {"fulfil": ["preimage"], "fail": ["reason"], "malformed": ["sha", "code"]}[u["kind"]]
    return (REMOVALS[u["kind"]], *(u[name] for name in values))


class Hook:
    """Counts events from its place on, or answers the peer's adds above an amount by a verdict: a code, or HOLD."""

    def __init__(self, place, amount=None, verdict=None):
        self.place, self.amount, self.verdict, self.calls = place, amount, verdict, []

    def answer(self, number, event):
        self.calls.append(number)
        what, own, u = event
        speaks = self.verdict is not None and what == "added" and not own and u["amount"] > self.amount
        return self.verdict if speaks else None


class Dispatcher:
    """Serves the events of an end in turn, from the first undecided one on, until its node restarts."""

    def __init__(self, start):
        self.start, self.said, self.hooks = start, [], []

    def next(self):
        return self.start + len(self.said)

    def register(self, *speaking):
        self.hooks.append(Hook(self.next(), *speaking))

    def serve(self, event):
        """What the hooks say of the next event, each of which is called: the first code, else HOLD where one says so,
        else None."""
        answers = [hook.answer(self.next(), event) for hook in self.hooks]
        codes = [it for it in answers if it not in (HOLD, None)]
        self.said.append(codes[0] if codes else HOLD if HOLD in answers else None)
        for hook in self.hooks:
            assert hook.calls == list(range(hook.place, self.next())), "a hook was called on each event, in turn"
        return self.said[-1]

    def verdict(self, number):
        return self.said[number - self.start]


class End:
    """One end of a channel: its lists, counts, numbers and marks."""
    def __init__(self, name, role, opening, fees):
        self.name, self.role, self.opening, self.fees = name, role, opening, fees
        self.own, self.taken = [], []
        self.signed, self.acknowledged, self.current = (0, 0), (0, 0), (0, 0)  # own updates, the peer's
        self.commitment = self.signatures = self.revocations = 0
        self.later = "signature"
        self.ready_sent = self.ready_taken = self.shut = self.peer_shut = False
        self.own_fee = self.peer_fee = self.closed = None
        self.line, self.failure, self.halted = "met", None, False
        self.events = 0
        self.ledger, self.decided = [], 0  # each event: what, whether of an own HTLC, the update; how many are decided
        self.decisions, self.results = [], []  # the peer's HTLC and its mark; the own HTLC, its origin, the outcome
        self.by_hand = set()  # HTLCs of the peer's that a script removed itself
        self.short_id, self.dispatcher = None, Dispatcher(0)
        self.inbox, self.other, self.report = [], None, None

    @property
    def node(self):
        return self.name[0]

    @property
    def channel(self):
        return int(self.name[1:])

    # ---- what lists are worth

    def balance(self, role, own, peer):
        """The balance of the side of this role, which offered `own`, in millisatoshi."""
        total = self.opening["push"] if role == "fundee" else 1000 * self.opening["satoshis"] - self.opening["push"]
        removed = {u["id"]: u["kind"] for u in peer if u["kind"] in REMOVALS}
        offered = {u["id"]: u["amount"] for u in peer if u["kind"] == "add"}
        for u in own:
            if u["kind"] == "add" and removed.get(u["id"]) not in ("fail", "malformed"):
                total -= u["amount"]
            if u["kind"] == "fulfil":
                total += offered[u["id"]]
        return total

    @staticmethod
    def live(own, peer):
        removed = {u["id"] for u in peer if u["kind"] in REMOVALS}
        return [u for u in own if u["kind"] == "add" and u["id"] not in removed]

    def limit(self, role, own, peer, u):
        """By what number the side that takes an add refuses it."""
        limits = self.opening["limits"]["fundee" if role == "funder" else "funder"]
        live = self.live(own, peer)
        if u["amount"] == 0 or u["amount"] < limits[0]:
            return 23
        if u["expiry"] >= 500000000:
            return 27
        if len(live) + 1 > limits[1]:
            return 24
        if sum(a["amount"] for a in live) + u["amount"] > limits[2]:
            return 25
        if self.balance(role, own, peer) - u["amount"] < 1000 * limits[3]:
            return 26
        return None

    # ---- what it does

    def is_ready(self):
        return self.ready_sent and self.ready_taken

    def has_begun(self):
        own, peer = self.own[:self.current[0]], self.taken[:self.current[1]]
        return (self.shut and self.peer_shut and self.acknowledged == self.current == (len(self.own), len(self.taken))
                and not self.live(own, peer) and not self.live(peer, own))

    def send(self, words, **message):
        self.report.append(f"{self.name} sends {words}")
        if self.other.line != "down":
            self.other.inbox.append(dict(message, words=words))

    def event(self, words):
        self.report.append(f"{self.name} event {self.events} {words}")
        self.events += 1

    def tell(self, own, updates):
        """Events of updates that are held from now on."""
        for u in updates:
            if u["kind"] == "add":
                self.ledger.append(("added", own, u))
                self.event(f"added {'own' if own else 'peer'} {u['id']}")
            elif u["kind"] in REMOVALS:
                self.ledger.append(("settled", not own, u))
                self.event(f"settled {'peer' if own else 'own'} {u['id']} {REMOVALS[u['kind']]}")

    def send_closing(self, fee):
        self.own_fee = fee
        self.send(f"closing {fee}", kind="closing", fee=fee, range=self.fees[1:])

    def tail(self):
        """The shutdown that is owed and allowed, then the funder's first fee."""
        if self.peer_shut and not self.shut and self.acknowledged[0] == len(self.own):
            self.shut = True
            self.send("shutdown", kind="shutdown")
        if self.has_begun() and self.role == "funder" and self.own_fee is None:
            self.send_closing(self.fees[0])

    def send_update(self, u):
        word = {"fee": lambda: f"fee {u['rate']}"}.get(u["kind"], lambda: f"{u['kind']} {u['id']}")()
        self.send(word, kind="update", update={name: value for name, value in u.items() if name != "origin"})

    def close(self, fee):
        self.closed = fee
        self.ledger.append(("closed", None, None))
        self.event(f"closed {fee}")

    # ---- commands

    def command(self, kind, u=None):
        if self.halted:
            raise Refused(62)
        if self.failure:
            raise Refused(self.failure)
        if kind == "confirm":
            if self.ready_sent or self.closed is not None:
                raise Refused(40)
        elif kind != "shutdown" and not self.is_ready():
            raise Refused(40)
        if self.line != "met":
            raise Refused(47)
        if kind == "confirm":
            self.short_id = u
        {"confirm": self.confirm, "sign": self.sign, "shutdown": self.shutdown}.get(kind, lambda: self.propose(u))()

    def confirm(self):
        self.ready_sent = True
        self.send("channel_ready", kind="ready")

    def sign(self):
        if self.signatures != self.revocations:
            raise Refused(41)
        covered = (len(self.own), self.current[1])
        if covered == self.signed:
            raise Refused(42)
        self.signed, self.later = covered, "signature"
        self.signatures += 1
        self.send(f"sign {self.signatures}", kind="sign")

    def shutdown(self):
        if self.shut:
            raise Refused(43)
        if self.acknowledged[0] != len(self.own):
            raise Refused(45)
        self.shut = True
        self.send("shutdown", kind="shutdown")
        self.tail()

    def propose(self, u):
        kind = u["kind"]
        if kind in ("add", "fee") and (self.shut or self.peer_shut):
            raise Refused(43)
        if kind == "add":
            u = dict(u, id=sum(1 for o in self.own if o["kind"] == "add"))
            fault = self.limit(self.role, self.own, self.taken[:self.current[1]], u)
            if fault:
                raise Refused(44, fault)
        elif kind == "fee":
            if self.role != "funder":
                raise Refused(44, 30)
        else:
            self.test_removal(u)
        self.own.append(u)
        self.send_update(u)

    def test_removal(self, u):
        adds = [(i, a) for i, a in enumerate(self.taken) if a["kind"] == "add" and a["id"] == u["id"]]
        if not adds:
            raise Refused(44, 28)
        if self.removal_in(self.own, u["id"]):
            raise Refused(49)
        place, add = adds[0]
        if place >= self.acknowledged[1]:
            raise Refused(48)
        if u["kind"] == "fulfil" and u["hash"] != add["hash"]:
            raise Refused(44, 29)
        if u["kind"] == "malformed" and not u["code"] & 0x8000:
            raise Refused(44, 21)

    @staticmethod
    def removal_in(updates, id):
        return next((u for u in updates if u["kind"] in REMOVALS and u["id"] == id), None)

    # ---- what is decided: taken without a connection too, and by an end that has failed

    def decides(self, event, mark):
        if self.halted:
            raise Refused(62)
        what, own, u = self.ledger[event]
        assert event == self.decided and (mark[0] == "none" or what == "added" and not own)
        assert mark[0] != "held" or mark == ("held", event), "what is held is held by its own event"
        self.decided += 1
        if mark[0] != "none":
            self.decisions.append((u["id"], mark))

    def resumes(self, event, mark):
        """What it holds by this event is decided by the mark, in the place of the decision that held it."""
        if self.halted:
            raise Refused(62)
        if not self.holds(event):
            raise Refused(40)
        place = [it for _, it in self.decisions].index(("held", event))
        self.decisions[place] = self.decisions[place][0], mark

    def recorded_decisions(self):
        """Its record has a decision until the removal of the HTLC is in its base."""
        base, _ = self.base()
        return [(id, mark) for id, mark in self.decisions if not self.removal_in(self.own[:base], id)]

    def holds(self, event):
        return any(mark == ("held", event) for _, mark in self.recorded_decisions())

    def has_decided(self, event, mark):
        """It has decided an event, and by a mark that holds where this one does."""
        return event < self.decided and self.holds(event) == (mark[0] == "held")

    def forgets(self, id):
        if self.halted:
            raise Refused(62)
        self.results = [it for it in self.results if it[0] != id]

    # ---- messages

    def take(self, m):
        kind = m["kind"]
        if kind in ("warning", "error"):
            return
        if self.line == "down" or (self.line == "waiting") != (kind == "reestablish"):
            raise Refused(21)
        getattr(self, "take_" + kind)(m)
        told = getattr(self, "held", None)
        self.held = None
        self.tail()
        if told:
            self.tell(*told)

    def take_ready(self, m):
        if self.closed is None:
            self.ready_taken = True

    def take_update(self, m):
        u = m["update"]
        peer = "fundee" if self.role == "funder" else "funder"
        if not self.is_ready():
            raise Refused(21)
        if u["kind"] == "add":
            if self.peer_shut:
                raise Refused(35)
            if u["id"] != sum(1 for o in self.taken if o["kind"] == "add"):
                raise Refused(22)
            fault = self.limit(peer, self.taken, self.own[:self.acknowledged[0]], u)
            if fault:
                raise Refused(fault)
        elif u["kind"] == "fee":
            if self.has_begun():
                raise Refused(21)
            if peer != "funder":
                raise Refused(30)
        else:
            held = [a for a in self.own[:self.current[0]] if a["kind"] == "add" and a["id"] == u["id"]]
            if not held or self.removal_in(self.taken, u["id"]):
                raise Refused(28)
            if u["kind"] == "fulfil" and u["hash"] != held[0]["hash"]:
                raise Refused(29)
            if u["kind"] == "malformed" and not u["code"] & 0x8000:
                raise Refused(21)
        self.taken.append(u)

    def take_sign(self, m):
        if not self.is_ready():
            raise Refused(21)
        before = self.current[0]
        self.current = (self.acknowledged[0], len(self.taken))
        self.commitment += 1
        self.later = "revocation"
        self.send(f"revoke {self.commitment - 1}", kind="revoke")
        self.held = True, self.own[before:self.current[0]]

    def take_revoke(self, m):
        if self.signatures == self.revocations:
            raise Refused(33)
        before = self.acknowledged[1]
        self.acknowledged = self.signed
        self.revocations += 1
        self.held = False, self.taken[before:self.acknowledged[1]]
        origins = {u["id"]: u.get("origin") for u in self.own if u["kind"] == "add"}
        self.results += [(u["id"], origins[u["id"]], outcome(u)) for u in self.held[1]
                         if u["kind"] in REMOVALS and origins[u["id"]]]

    def take_shutdown(self, m):
        self.peer_shut = True

    def take_closing(self, m):
        if not self.has_begun():
            raise Refused(21)
        fee, (least, most) = m["fee"], m["range"]
        if self.closed is not None:
            if fee != self.closed:
                raise Refused(36)
        elif fee == self.own_fee:
            self.peer_fee = fee
            self.close(fee)
        elif fee == self.peer_fee:
            pass
        elif self.fees[1] <= fee <= self.fees[2]:
            self.peer_fee = fee
            self.send_closing(fee)
            self.close(fee)
        elif self.role == "fundee" and self.own_fee is None and max(least, self.fees[1]) <= min(most, self.fees[2]):
            self.peer_fee = fee
            self.send_closing(min(max(fee, least, self.fees[1]), most, self.fees[2]))
        else:
            raise Refused(36)

    def lost_data(self, n, r):
        """What follows 34 where the peer's secret is right: whose data is lost, if either's is."""
        if self.commitment < r <= 2**48:
            return ["own data lost"]
        return ["peer data lost"] if n <= self.signatures + 1 and r <= self.commitment else []

    def take_reestablish(self, m):
        n, r = m["n"], m["r"]
        owed = {"signature": [], "revocation": []}
        if n == self.signatures and self.signatures == self.revocations + 1:
            owed["signature"] = [lambda u=u: self.send_update(u) for u in self.own[self.acknowledged[0]:self.signed[0]]]
            owed["signature"].append(lambda: self.send(f"sign {self.signatures}", kind="sign"))
        elif n != self.signatures + 1:
            raise Refused(34, *self.lost_data(n, r))
        if r + 1 == self.commitment:
            owed["revocation"] = [lambda: self.send(f"revoke {self.commitment - 1}", kind="revoke")]
        elif r != self.commitment:
            raise Refused(34, *self.lost_data(n, r))
        self.line = "met"
        if self.commitment == 0 and n == 1 and self.ready_sent:
            self.send("channel_ready", kind="ready")
        first, last = ("revocation", "signature") if self.later == "signature" else ("signature", "revocation")
        for resend in owed[first] + owed[last]:
            resend()
        if self.shut:
            self.send("shutdown", kind="shutdown")
        if self.own_fee is not None:
            self.send_closing(self.own_fee)

    # ---- connections

    def go_down(self):
        self.line, self.inbox = "down", []
        self.own, self.taken = self.own[:self.signed[0]], self.taken[:self.current[1]]

    def come_up(self):
        self.line = "waiting"
        n, r = self.commitment + 1, self.revocations
        return lambda: self.send(f"reestablish {n} {r}", kind="reestablish", n=n, r=r)

    # ---- what a book asks

    def is_usable(self):
        """It takes payments to forward, as far as its book knows."""
        return (self.is_ready() and not self.shut and not self.peer_shut and self.closed is None and not self.failure
                and not self.halted and self.line != "down")

    def covers_add(self, id):
        """A signature of its own covers the HTLC of this id that it has offered."""
        return any(u["kind"] == "add" and u["id"] == id for u in self.own[:self.signed[0]])

    def next_own_id(self):
        return sum(1 for u in self.own if u["kind"] == "add")

    def base(self):
        """How many updates, own and the peer's, its record has a state in place of: those in all of its commitments,
        up to the first one whose event isn't decided."""
        decided = [id(u) for _, _, u in self.ledger[:self.decided]]

        def count(updates, most):
            waits = [n for n, u in enumerate(updates[:most]) if u["kind"] != "fee" and id(u) not in decided]
            return min(waits + [most])

        return (count(self.own, min(self.signed[0], self.acknowledged[0], self.current[0])),
                count(self.taken, self.acknowledged[1]))

    def reading(self):
        """What its record tells a book that begins anew."""
        base, peer_base = self.base()
        there = self.live(self.own[:base], self.taken[:peer_base]) + self.own[base:]
        offered = [(u["origin"], ("offered", self.channel, u["id"])) for u in there if u.get("origin")]
        results = [(origin, ("over", self.channel, own_id, how)) for own_id, origin, how in self.results]
        decided = [self.reading_of(id, mark) for id, mark in self.recorded_decisions()]
        return Reading(offered, results, decided)

    def reading_of(self, id, mark):
        add = next(u for u in self.taken if u["kind"] == "add" and u["id"] == id)
        h = Htlc(self.channel, None, offer(add), mark)
        h.decided = True
        if self.removal_in(self.own, id):
            h.back = "settled" if self.removal_in(self.own[:self.current[0]], id) else "sent"
        return h

    # ---- how it stands

    def line_at_end(self):
        own, peer = self.own[:self.current[0]], self.taken[:self.current[1]]
        other = "fundee" if self.role == "funder" else "funder"
        live = len(self.live(own, peer)) + len(self.live(peer, own))
        state = "open"
        if self.is_ready():
            state = "ready"
        if self.shut:
            state = "shut"
        if self.closed is not None:
            state = f"closed {self.closed}"
        if self.failure:
            state = " ".join(["failed", *map(str, self.failure)])
        return (f"{self.name} signed {self.signed[0]} committed {self.current[0]} peer {self.acknowledged[1]} "
                f"balance {self.balance(self.role, own, peer)}/{self.balance(other, peer, own)} live {live} {state}")


def offer(add):
    return {name: add[name] for name in ("id", "amount", "hash", "expiry")} | {"hop": add["onion"]}


class World:
    def __init__(self):
        self.fees, self.limits, self.policies, self.books = {}, {}, {}, {}
        self.channels, self.report = {}, []
        self.touched, self.went_out = set(), defaultdict(lambda: defaultdict(set))

    def book(self, name):
        """The book of a node."""
        if name not in self.books:
            self.books[name] = Book()
            self.books[name].height = 100
        return self.books[name]

    def ends_of(self, name):
        """The ends of a node, by the numbers of their channels."""
        return [it for channel in sorted(self.channels) for it in self.channels[channel] if it.node == name]

    def open(self, channel, x, y, satoshis, push):
        fit = 1 <= satoshis <= 2100000000000000 and push <= 1000 * satoshis
        limits = {"funder": self.limits.get(x, (1, 30, 10**12, 0)), "fundee": self.limits.get(y, (1, 30, 10**12, 0))}
        if x == y or channel in self.channels or not fit or any(l[1] > 483 for l in limits.values()):
            self.report.append("idle")
            return
        opening = {"satoshis": satoshis, "push": push, "limits": limits}
        ends = [End(f"{n}{channel}", role, opening, self.fees.get(n, (300, 200, 400)))
                for n, role in ((x, "funder"), (y, "fundee"))]
        ends[0].other, ends[1].other = ends[1], ends[0]
        for it in ends:
            it.report = self.report
        self.channels[channel] = ends
        self.report.append(f"{channel} open")

    def at(self, place, what):
        """Does something at an end; where there is no such end the step is idle."""
        name, channel = place
        self.touched.add(name)
        for it in self.channels.get(channel, []):
            if it.node == name:
                return what(it)
        self.report.append("idle")

    def try_act(self, place, act, what):
        """Does something about an act of an end, where that can be taken; else the step is idle."""
        self.at(place, lambda it: what(it) if act.can_be_taken(self, it) else self.report.append("idle"))

    def act(self, place, act):
        self.try_act(place, act, lambda it: self.done(it, act))

    def done(self, it, act):
        try:
            act.do(self, it)
        except Refused as refused:
            self.refused(it, refused.numbers)

    def refused(self, it, numbers):
        self.report.append(" ".join([it.name, "refused", *map(str, numbers)]))
        if 20 <= numbers[0] <= 36:
            it.send("warning" if numbers[0] == 36 else "error", kind="warning" if numbers[0] == 36 else "error")

    def deliver(self, it):
        before = len(it.ledger)
        try:
            it.take(it.inbox.pop(0))
        except Refused as refused:
            assert refused.numbers == (36,), "no message of an honest peer is refused but by 36"
            raise
        for what, own, u in it.ledger[before:]:
            if what == "settled":
                self.book(it.node).settled(it.channel, own, u["id"], outcome(u))

    def down(self, it):
        it.go_down()
        if not it.halted:
            removals = [u["id"] for u in it.own if u["kind"] in REMOVALS]
            self.book(it.node).dropped(it.channel, it.next_own_id(), it.has_decided, removals)

    # ---- hooks and the book

    def dispatch(self, it):
        number = it.dispatcher.next()
        if number == len(it.ledger):
            self.report.append("idle")
            return
        verdict = it.dispatcher.serve(it.ledger[number])
        words = {None: "continue", HOLD: HOLD}.get(verdict) or f"fail {verdict:04x}"
        self.report.append(f"{it.name} dispatch {number} {words}")

    def follow(self, name):
        """What a node's book knows of its channels, as the last step has left them: where two of them have one short
        channel id, the one with the greater number has it."""
        base, proportional, delta = self.policies.get(name, (1000, 100, 40))
        book = self.book(name)
        for it in self.ends_of(name):
            if it.short_id is not None:
                minimum = it.opening["limits"][it.other.role][0]
                book.routes[it.short_id] = it.channel, base, proportional, delta, minimum
                book.used[it.channel] = it.is_usable()

    def decide(self, it):
        """The first undecided event of an end is decided by its book, and then by the end."""
        self.follow(it.node)
        what, own, u = it.ledger[it.decided]
        add = offer(u) if what == "added" and not own else None
        self.book(it.node).decide(it.channel, it.decided, add, it.dispatcher.verdict(it.decided))
        self.take(it)

    def resume(self, it, event, verdict):
        """What an end holds by this event is decided by its book, and then by the end."""
        self.follow(it.node)
        if self.book(it.node).resume(it.channel, event, verdict) is None:
            raise Refused(40)
        self.take(it)

    def take(self, it):
        """An end takes the first command that its book has for it, and answers it."""
        book = self.book(it.node)
        command = book.take(it.channel)
        try:
            own_id = self.obey(it, *command)
        except Refused as refused:
            book.answered(it.channel, True, refused.numbers[0])
            raise
        book.answered(it.channel, False, own_id)

    def obey(self, it, kind, *values):
        """An end does what its book commands; the number by which it answers."""
        if kind in ("decide", "resume"):
            event, mark = values
            {"decide": it.decides, "resume": it.resumes}[kind](event, mark)
            self.report.append(f"{it.name} {kind}d {event} {mark_words(mark)}")
            return event
        if kind == "forget":
            it.forgets(*values)
            return values[0]
        names = {"add": ("amount", "hash", "expiry", "onion", "origin"), "fulfil": ("id", "preimage"),
                 "fail": ("id", "reason"), "malformed": ("id", "sha", "code")}
        u = dict(zip(names[kind], values), kind=kind)
        if kind == "fulfil":
            u["hash"] = digest(u["preimage"])
        it.command(kind, u)
        return it.own[-1]["id"]

    def up(self, channel):
        ends = self.channels.get(channel)
        if not ends or any(it.line != "down" or it.halted for it in ends):
            self.report.append("idle")
            return
        for send in [it.come_up() for it in ends]:
            send()

    def restart(self, name):
        """Each end of a node comes back from its record, and the node's book is read off these."""
        self.touched.add(name)
        ends = self.ends_of(name)
        for it in ends:
            it.go_down()
            it.halted, it.dispatcher = False, Dispatcher(it.decided)
        self.book(name).rebuild([it.reading() for it in ends])

    def reload(self, it):
        """An end that has halted comes back from its record, beside its node's book, which goes on."""
        if not it.halted:
            self.report.append("idle")
            return
        it.halted = False
        self.down(it)

    # ---- stops, and want of memory

    def stop_before(self, place, act):
        """Its node stops before an end's act: all of its ends restart."""
        self.try_act(place, act, lambda it: self.stops(it.node))

    def stop_after(self, place, act):
        """Its node stops behind an end's act: what it says reaches nobody, and nothing of it is told."""
        def stop(it):
            told, on_its_way = len(self.report), list(it.other.inbox)
            self.done(it, act)
            del self.report[told:]
            it.other.inbox = on_its_way
            self.stops(it.node)

        self.try_act(place, act, stop)

    def stops(self, name):
        self.report.append(f"{name} restarts")
        self.restart(name)

    def no_memory(self, place, act):
        """An end has no memory for its act, and halts: of the act nothing is begun."""
        def halt(it):
            it.go_down()
            it.halted = True
            self.refused(it, [60])

        self.try_act(place, act, halt)

    # ---- what has to hold

    def check(self):
        """What has to hold of the nodes that the last steps have touched."""
        for name in self.touched:
            ends = self.ends_of(name)
            out = defaultdict(list)  # of an HTLC that came in: the ends and ids of those that go out for it
            for it in ends:
                for u in it.own:
                    if u.get("origin"):
                        out[u["origin"]].append((it, u["id"]))
            by_hand = {(it.channel, id) for it in ends for id in it.by_hand}
            self.check_out({*out, *self.went_out[name]} - by_hand, out, self.went_out[name])
            for it in ends:
                self.check_in(it, out)
        self.touched.clear()

    @staticmethod
    def check_out(origins, out, ever):
        """One payment out for each payment in, at any time."""
        for origin in origins:
            covered = {(it.channel, id) for it, id in out[origin] if it.covers_add(id)}
            ever[origin] |= covered
            assert len(ever[origin]) <= 1, "one payment out for each payment in"
            assert covered == ever[origin], "what is covered stays covered"

    @staticmethod
    def check_in(it, out):
        """What came in waits while it is held, and is removed as what went out for it was, for good."""
        for id, mark in it.decisions:
            if mark[0] == "held" and id not in it.by_hand:
                assert not out[it.channel, id] and not it.removal_in(it.own, id), "what is held waits"
        for u in (u for u in it.own if u["kind"] in REMOVALS and u["id"] not in it.by_hand):
            for other, id in out[it.channel, u["id"]]:
                end = other.removal_in(other.taken[:other.acknowledged[1]], id)
                assert end, "no removal while what went out may still be fulfilled"
                assert (end["kind"] == "fulfil") == (u["kind"] == "fulfil"), "it comes back as it went"
        hashes = {u["id"]: u["hash"] for u in it.taken if u["kind"] == "add"}
        for u in (u for u in it.own if u["kind"] == "fulfil"):
            assert digest(u["preimage"]) == hashes[u["id"]], "a fulfilment has its preimage"

    def check_channels(self):
        """What a side holds of the other side's updates begins what that side has signed; a close is the last event."""
        for it in (it for ends in self.channels.values() for it in ends):
            held = it.taken[:it.acknowledged[1]]
            signed = [{k: v for k, v in u.items() if k != "origin"} for u in it.other.own[:it.other.signed[0]]]
            assert held == signed[:len(held)], "what is held begins what was signed"
            assert all(what != "closed" for what, _, _ in it.ledger[:-1]), "no event behind the close"


def mark_words(mark):
    kind, *values = mark
    if kind == "forward":
        return f"forward {values[0]}"
    if kind == "fail":
        return f"fail {values[0][:2].hex()}"
    return f"malformed {values[0]:04x}" if kind == "malformed" else kind


# ---- acts: what an end does, and a node may stop round

class Command:
    def __init__(self, kind, u=None):
        self.kind, self.u = kind, u

    @staticmethod
    def can_be_taken(world, it):
        return True

    def do(self, world, it):
        it.command(self.kind, self.u)
        if self.kind in REMOVALS:
            it.by_hand.add(self.u["id"])


class Deliver:
    """The next message in flight."""

    @staticmethod
    def can_be_taken(world, it):
        return bool(it.inbox)

    @staticmethod
    def do(world, it):
        world.deliver(it)


class Take:
    """The first command of the book."""

    @staticmethod
    def can_be_taken(world, it):
        return world.book(it.node).first(it.channel) is not None

    @staticmethod
    def do(world, it):
        world.take(it)


class Decide:
    """The first undecided event, which was dispatched."""

    @staticmethod
    def can_be_taken(world, it):
        return it.decided < it.dispatcher.next()

    @staticmethod
    def do(world, it):
        world.decide(it)


class Resume:
    """What is held by an event is decided by a verdict."""

    def __init__(self, event, verdict):
        self.event, self.verdict = event, verdict

    @staticmethod
    def can_be_taken(world, it):
        return True

    def do(self, world, it):
        world.resume(it, self.event, self.verdict)


# ---- lines

ACTS = ("confirm", "add", "fulfil", "fail", "malformed", "fee", "sign", "shutdown", "deliver", "take", "decide",
        "resume")


def act_of(word, words):
    """An act's line as its end and what that does."""
    if word in ("deliver", "take", "decide", "sign", "shutdown") and len(words) == 1:
        acts = {"deliver": Deliver, "take": Take, "decide": Decide}
        return end(words[0]), acts[word] if word in acts else Command(word)
    if word == "confirm" and len(words) == 2:
        return end(words[0]), Command(word, short_id(words[1]))
    if word == "add" and len(words) >= 4 and len(words) % 3 == 1:
        amount, expiry, secret = number(words[1]), number(words[2], 2**32 - 1), preimage(words[3])
        hops = [(short_id(words[i]), number(words[i + 1]), number(words[i + 2], 2**32 - 1))
                for i in range(4, len(words), 3)]
        if onion_size(amount, expiry, [hop[1:] for hop in hops]) > 1300:
            raise Bad()
        u = dict(kind="add", amount=amount, expiry=expiry, hash=digest(secret),
                 onion=onion(amount, expiry, secret[0], hops))
        return end(words[0]), Command(word, u)
    if word in REMOVALS and len(words) == 3:
        u = dict(kind=word, id=number(words[1]))
        if word == "fulfil":
            u.update(preimage=preimage(words[2]), hash=digest(preimage(words[2])))
        else:
            u.update(code=code(words[2]))
            told = u["code"].to_bytes(2, "big") + (bytes(2) if u["code"] & 0x1000 else b"")
            u.update(dict(reason=told) if word == "fail" else dict(sha=bytes(32)))
        return end(words[0]), Command(word, u)
    if word == "fee" and len(words) == 2:
        return end(words[0]), Command(word, dict(kind="fee", rate=number(words[1], 2**32 - 1)))
    if word == "resume" and len(words) == 3 and words[2] == "continue":
        return end(words[0]), Resume(number(words[1]), None)
    if word == "resume" and len(words) == 4 and words[2] == "fail":
        return end(words[0]), Resume(number(words[1]), lawful_code(words[3]))
    raise Bad()


def setting_of(word, words):
    """A setting of a node: what it is to be told by."""
    x = node(words[0])
    if word == "height" and len(words) == 2:
        height = number(words[1], 400000000)
        return lambda w: setattr(w.book(x), "height", height)
    if word == "expect" and len(words) == 3:
        secret, amount = preimage(words[1]), number(words[2])
        return lambda w: w.book(x).expected.__setitem__(digest(secret), (secret, secret[0], amount))
    if word == "set" and len(words) == 5 and words[1] == "fees":
        first, least, most = map(number, words[2:])
        if not least <= first <= most:
            raise Bad()
        return lambda w: w.fees.__setitem__(x, (first, least, most))
    if word == "set" and len(words) == 5 and words[1] == "policy":
        policy = tuple(number(it, most) for it, most in zip(words[2:], (2**32 - 1, 2**32 - 1, 2**16 - 1)))
        return lambda w: w.policies.__setitem__(x, policy)
    if word == "set" and len(words) == 6 and words[1] == "limits":
        limits = tuple(number(it, most) for it, most in zip(words[2:], (2**64 - 1, 2**16 - 1, 2**64 - 1, 2**64 - 1)))
        return lambda w: w.limits.__setitem__(x, limits)
    raise Bad()


def hook_of(kind, *words):
    """Above which amount a hook answers, and by what verdict; nothing for one that only counts."""
    if kind == "count" and not words:
        return ()
    if kind == "above" and len(words) == 2:
        return number(words[0]), lawful_code(words[1])
    if kind == "hold" and len(words) == 1:
        return number(words[0]), HOLD
    raise Bad()


def step_of(line):
    """A line as a step: a function of the world."""
    word, *words = line.split(" ")
    if word in ACTS:
        place, act = act_of(word, words)
        return lambda w: w.act(place, act)
    if word in ("stop-before", "stop-after", "no-memory") and words and words[0] in ACTS:
        place, act = act_of(words[0], words[1:])
        return lambda w: getattr(w, word.replace("-", "_"))(place, act)
    if word in ("set", "height", "expect") and words:
        return setting_of(word, words)
    if word in ("open", "ready") and len(words) == (5 if word == "open" else 6):
        c, x, y, s, p = number(words[0], 99), node(words[1]), node(words[2]), number(words[3]), number(words[4])
        if word == "open":
            return lambda w: w.open(c, x, y, s, p)
        confirm = Command("confirm", short_id(words[5]))
        return lambda w: [w.open(c, x, y, s, p)] + [w.act((n, c), confirm) for n in (x, y)] + [
            w.act((n, c), Deliver) for n in (y, x)]
    if word in ("down", "reload", "dispatch") and len(words) == 1:
        e = end(words[0])
        return lambda w: w.at(e, getattr(w, word))
    if word == "hook" and len(words) >= 2:
        e, speaking = end(words[0]), hook_of(*words[1:])
        return lambda w: w.at(e, lambda it: it.dispatcher.register(*speaking))
    if word == "up" and len(words) == 1:
        c = number(words[0], 99)
        return lambda w: w.up(c)
    if word == "restart" and len(words) == 1:
        x = node(words[0])
        return lambda w: w.restart(x)
    raise Bad()


def report(script):
    """The lines of the report, and None; or no lines, and the number of the line that is refused."""
    steps = []
    for place, line in enumerate(script.split("\n"), 1):
        if line == "" or line.startswith("#"):
            continue
        try:
            steps.append(step_of(line))
        except Bad:
            return [], place
    world = World()
    for step in steps:
        step(world)
        world.check()
    world.check_channels()
    for channel in sorted(world.channels):
        world.report += [it.line_at_end() for it in world.channels[channel]]
    return world.report, None

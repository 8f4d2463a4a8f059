"""A plain model of a routing node without threads, written from the rules: include/lnlink.h ("A node"),
docs/PROTOCOL.md and docs/FORMATS.md. Its channels are ends of links_model.py, and its payments stand in a book of
book_model.py. It says what each call answers, what is handed out after it and in which order of each channel, and what
comes back of the last batch that was saved. checks/fuzz/nodes compares the library's node with it.

The order between channels is free: an item has to be one of those that are due, and none may come only where none is.
Values are those of the Python package (bindings/python/lnlink)."""
from copy import copy
from dataclasses import dataclass
from hashlib import sha256
import os
import sys

sys.path.insert(0, os.path.dirname(os.path.abspath(__file__)))
from lnlink import (Added, Batch, BlankItem, ChannelClosed, CloseBlank, Closing, CloseQuestion, EventItem, Failed,
                    FailedMalformed, FailPayment, Fulfilled, HeldHtlc, HeldSignatures, Hold, Htlc, NodeEvent,
                    NodeMessage, OnionItem, Opened, OwnSecretQuestion, PointBlank, Record, RevocationBlank, Role,
                    SecretQuestion, Send, Settled, SignaturesBlank, SignaturesQuestion, Summary, View, WrapItem)
from lnlink.views import Connection, LostData, Status
from book_model import CODES, HOLD, Book
from links_model import OF_A_CHANNEL, REMOVALS, UPDATES, Fault, Link, decode, encode, id_of
from model import Refused, World, offer, outcome

NODE = "N"
LONGEST_REASON = 65491
GREATEST_HEIGHT = 400000000


class Wrong(Exception):
    """What is handed out isn't what is due."""


def want(is_so, *what):
    if not is_so:
        raise Wrong(" ".join(map(str, what)))


class Packet(bytes):
    """An onion, and what the host has told of it under its payment hash: `opened` has that by both."""

    def under(self, payment_hash, opened):
        self.name, self.opened = (payment_hash, bytes(self)), opened
        return self

    @property
    def hop(self):
        return self.opened.get(self.name)

    def __getattr__(self, name):
        return getattr(self.hop, name)

    def next_packet(self):
        return self.hop.next_packet() if self.hop else None

    def sha(self):
        return sha256(self).digest()


class NodeBook(Book):
    """A book whose own failures begin with the node's mark: its host wraps them as they leave."""

    def __init__(self, mark):
        super().__init__()
        self.own_mark = mark

    def removal(self, h):
        told = super().removal(h)
        came_back = h.mark[0] == "forward" and h.way[0] == "over" and h.way[3][0] == "failed"
        return (*told[:2], self.own_mark + told[2]) if told and told[0] == "fail" and not came_back else told


class NodeEnd(Link):
    """A node's end of a channel. What it sends waits in the node's line."""

    def __init__(self, label, role, keys, config, opened):
        super().__init__(f"{NODE}{label}", role, keys, config)
        self.opened, self.other = opened, Side("fundee" if role == "funder" else "funder")
        self.held_signatures, self.secrets = None, []  # the peer's: what the chain may need

    def put(self, data):
        self.sent.append(data)

    def event(self, words):
        self.events += 1

    def update_of(self, typ, m):
        u = Link.update_of(typ, m)
        return dict(u, onion=Packet(u["onion"]).under(u["hash"], self.opened)) if typ == 128 else u

    def command(self, kind, u=None):
        if self.failure:
            raise Refused(*self.failure)
        super().command(kind, u)

    def copied(self):
        it = copy(self)
        for name in ("own", "taken", "ledger", "decisions", "results", "secrets"):
            setattr(it, name, list(getattr(self, name)))
        return it

    def come_back(self):
        """As its record has it."""
        it = self.copied()
        it.go_down()
        it.secrets = []
        return it

    def in_record(self):
        """The adds of the peer's that its record has."""
        base, peer_base = self.base()
        there = self.live(self.taken[:peer_base], self.own[:base]) + self.taken[peer_base:]
        return [u for u in there if u["kind"] == "add"]

    # ---- what is asked and left blank

    def worth(self, own, peer):
        return view_of(self.view(own, peer)[0])

    def closing(self, fee):
        own, peer = self.own[:self.current[0]], self.taken[:self.current[1]]
        balances = self.balance(self.role, own, peer), self.balance(self.other.role, peer, own)
        return Closing(self.side, fee, *balances, self.script, self.peer_script or b"")

    @property
    def side(self):
        return Role.FUNDER if self.role == "funder" else Role.FUNDEE

    def blank(self, data):
        """What the host fills in a message."""
        typ = int.from_bytes(data[:2], "big")
        if typ in (34, 35):
            return SignaturesBlank(self.side, 0, self.points[0], self.worth([], []))
        if typ == 132:
            covered = self.own[:self.signed[0]], self.taken[:self.signed[1]]
            return SignaturesBlank(self.side, self.signatures, self.points[1], self.worth(*covered))
        if typ == 133:
            return RevocationBlank(self.commitment - 1, self.commitment + 1)
        if typ == 39:
            return CloseBlank(self.closing(decode(data)[1]["fee_satoshis"]))
        return PointBlank(1 if typ == 36 else self.commitment) if typ in (36, 136) else None

    def question(self, typ, m):
        """The one answer of keys that decides what becomes of a message."""
        meant = self.stage in ("signed", "saved") and m.get("channel_id") == self.id
        if self.halted or self.failure or self.line == "down" or typ in OF_A_CHANNEL and not meant:
            return None
        if (self.stage, typ) in (("created", 34), ("signed", 35)):
            return SignaturesQuestion(self.side, 0, self.worth([], []))
        if self.stage != "saved":
            return None
        if self.line == "waiting":
            return self.told_back(m["n"], m["r"]) if typ == 136 else None
        if typ == 132 and self.is_ready():
            return SignaturesQuestion(self.side, self.commitment + 1, self.worth(*self.commitments()[3]))
        if typ == 133 and self.signatures != self.revocations:
            return SecretQuestion(self.revocations, self.points[0])
        return CloseQuestion(self.closing(m["fee_satoshis"])) if typ == 39 and self.has_begun() else None

    def told_back(self, n, r):
        """The own secret that the peer tells back, where it decides."""
        is_served = (n == self.signatures + 1 or n == self.signatures == self.revocations + 1) and (
            r in (self.commitment, self.commitment - 1))
        return OwnSecretQuestion(r - 1) if r and (is_served or self.lost_data(n, r)) else None

    def see(self, typ, m):
        """What of a message that was taken the chain may need."""
        if typ in (34, 35, 132):
            number = self.commitment if typ == 132 else 0
            self.held_signatures = HeldSignatures(number, m["signature"], tuple(m.get("htlc_signatures", ())))
        if typ == 133:
            self.secrets.append((self.revocations - 1, m["secret"]))

    # ---- how it stands

    def item(self, number):
        """Its event of this number."""
        what, own, u = self.ledger[number]
        if what == "closed":
            return EventItem(number, ChannelClosed(self.closed))
        if what == "added":
            return EventItem(number, Added(own, u["id"], u["amount"], u["hash"], u["expiry"], bytes(u["onion"])))
        kind, *values = outcome(u)
        how = {"fulfilled": Fulfilled, "failed": Failed, "malformed": FailedMalformed}[kind]
        return EventItem(number, Settled(own, u["id"], how(*values)))

    def summary(self):
        own, peer = self.own[:self.current[0]], self.taken[:self.current[1]]
        removed = [u["id"] for u in self.own[self.base()[0]:] if u["kind"] in REMOVALS]
        balances = self.balance(self.role, own, peer), self.balance(self.other.role, peer, own)
        live = len(self.live(own, peer)) + len(self.live(peer, own))
        return Summary(self.connection(), self.halted, self.id, *self.status(), self.commitment, self.signatures,
                       self.revocations, *balances, live, self.next_own_id(), tuple(removed))

    def connection(self):
        return {"down": Connection.DOWN, "waiting": Connection.AWAITS_REESTABLISH}.get(self.line, Connection.CONNECTED)

    def status(self):
        """The status, its value, and whose data is lost."""
        if self.failure:
            number, *lost = self.failure
            return Status.FAILED, number, LostData[lost[0].split(" ")[0].upper()] if lost else LostData.UNPROVED
        status = Status.READY if self.is_ready() else Status.OPEN
        status = Status.SHUT if self.shut else status
        status = Status.CLOSED if self.closed is not None else status
        return status, self.closed or 0, LostData.UNPROVED

    def commitments(self):
        """The commitments that `view` tells of, each by two lists."""
        return [(self.own[:a], self.taken[:b]) for a, b in (
            self.current, self.acknowledged, (len(self.own), self.current[1]), (self.acknowledged[0], len(self.taken)))]


@dataclass
class Side:
    """The other side of a channel."""
    role: str


def view_of(data):
    """The view that toy keys sign as these bytes."""
    htlcs = [data[at:at + 53] for at in range(24, len(data), 53)]
    return View(whole(data[:8]), whole(data[8:16]), whole(data[16:20]), tuple(
        Htlc(Role(it[0]), whole(it[1:9]), whole(it[9:17]), it[17:49], whole(it[49:])) for it in htlcs))


def whole(data):
    return int.from_bytes(data, "big")


@dataclass
class Message:
    """One that waits to leave: what is blank in it, and how many changes of records have to be saved before."""
    data: bytes
    blank: object
    need: int
    is_wrapped: bool = False
    number: int = None
    with_host: str = None

    def is_failure(self):
        return self.data[:2] == bytes([0, 131])


class NodeModel(World):
    """The node. Channels are told by their numbers; the book tells them by their labels, which outlast a load."""

    def __init__(self, settings, opened):
        super().__init__()
        self.settings, self.opened = settings, opened
        self.books[NODE] = NodeBook(settings.mark)
        self.policies[NODE] = (settings.fee_base_msat, settings.fee_proportional_millionths, settings.cltv_expiry_delta)
        self.ends, self.lines, self.is_out, self.saved_events = [], [], [], []
        self.changes = self.closed_changes = self.saved_changes = self.batches = 0
        self.open_numbers, self.closed_batch = set(), None
        self.names, self.is_loading, self.to_ask = {}, False, set()  # the HTLCs of each onion that was asked for
        self.numbers = set()  # of messages that were handed out
        self.turns = []  # in which the book may have commands, in the order in which they came to be

    @classmethod
    def load(cls, settings, opened, saved):
        """The node of what was saved of its channels, in this order."""
        opened.clear()
        node = cls(settings, opened)
        for it in saved:
            node.add(it.come_back())
        node.books[NODE].rebuild([it.reading() for it in node.ends])
        for number, it in enumerate(node.ends):
            node.list_turn(number)
            for u in it.in_record():
                node.names.setdefault(u["onion"].name, set()).add((it.channel, u["id"]))
        node.to_ask, node.is_loading = set(node.names), bool(node.names)
        node.go_on()
        return node

    def add(self, it):
        self.ends.append(it)
        self.lines.append([])
        self.is_out.append(False)
        self.saved_events.append(it.events)
        self.channels[it.channel] = [it]
        return len(self.ends) - 1

    def end(self, number):
        if number >= len(self.ends):
            raise Refused(40)
        return self.ends[number]

    # ---- what calls of a link make

    def act(self, number, what, saves=lambda it: True):
        """A link does something: its record changes, its messages wait, and the book hears its events."""
        it = self.ends[number]
        it.sent, it.told, before, had_failed = [], [], len(it.ledger), it.failure
        try:
            what()
        except Refused:
            if it.failure != had_failed and it.stage == "saved":
                self.change(number)
            self.list_turn(number)
            raise
        if it.stage == "saved" and saves(it):
            self.change(number)
        for data in it.sent:
            self.post(number, data)
        for what, own, u in it.ledger[before:]:
            if what == "settled":
                self.settled(it.channel, own, u)
        self.list_turn(number)

    def settled(self, label, own, u):
        """The book hears of a removal. The channel of the payment's other leg may have a turn."""
        book = self.books[NODE]
        if own:
            others = [h.channel for h in book.htlcs if h.way[1:3] == (label, u["id"])]
        else:
            others = [h.way[1] for h in book.named((label, u["id"])) if len(h.way) > 1]
        book.settled(label, own, u["id"], outcome(u))
        for other in others:
            self.list_turn(self.number_of(other))

    def change(self, number):
        self.changes += 1
        self.open_numbers.add(number)

    def post(self, number, data):
        self.lines[number].append(Message(data, self.ends[number].blank(data), self.changes))

    def list_turn(self, number):
        if number not in self.turns:
            self.turns.append(number)

    def go_on(self):
        """What the book commands is done, turn by turn, until nothing is due in any channel."""
        while self.turns:
            if not self.obey_book(self.turns[0]):
                self.turns.pop(0)
            if not self.turns:
                self.turns = [it for it in range(len(self.ends))
                              if self.obey_book(it)]

    def go_on_by(self, mark):
        """What is due once an HTLC is decided so: the channel to which it goes has a turn."""
        if mark[0] == "forward":
            self.list_turn(self.number_of(mark[1]))
        self.go_on()

    def obey_book(self, number):
        """A link does the first thing that the book commands. Whether another may follow."""
        it, book = self.ends[number], self.books[NODE]
        first = book.first(it.channel) if book.htlcs and it.stage == "saved" else None
        if first is None:
            return False
        try:
            self.act(number, lambda: self.take(it), saves=lambda it: first[0] == "forget")
        except Refused as refused:
            if refused.numbers[0] in (47, 62):
                return False
            if first[0] == "add":
                self.list_turn(self.number_of(first[1][0]))
        return True

    # ---- calls

    def open(self, label, role, keys, config, opening):
        limits, fees = config["limits"], config["fees"]
        if limits[1] > 483 or not fees[1] <= fees[0] <= fees[2]:
            raise Refused(40)
        it, satoshis = NodeEnd(label, role, keys, config, self.opened), opening["funding_satoshis"]
        if role == "funder":
            if not 1 <= satoshis <= 2100000000000000 or opening["push_msat"] > 1000 * satoshis:
                raise Refused(40)
            it.funding, it.temporary = opening["funding"], opening["temporary_id"]
            it.spec = dict(it.common(), **{name: value for name, value in opening.items() if name != "funding"})
        return self.add(it)

    def fund(self, number, txid, output):
        if len(txid) != 32:
            raise Refused(81)
        it = self.end(number)
        if it.role != "funder" or it.stage != "accept":
            raise Refused(40)
        it.funding = txid, output

    def connect(self, number):
        if self.is_loading:
            raise Refused(80)
        it = self.end(number)
        try:
            self.act(number, lambda: it.connect()(), saves=lambda it: False)
        finally:
            self.go_on()

    def disconnect(self, number):
        if number >= len(self.ends):
            return
        it, self.lines[number] = self.ends[number], []
        if it.line != "down":
            it.fall()
            if it.stage == "saved":
                removals = [u["id"] for u in it.own if u["kind"] in REMOVALS]
                self.books[NODE].dropped(it.channel, it.next_own_id(), it.has_decided, removals)
        self.list_turn(number)
        self.go_on()

    def question(self, number, data):
        try:
            typ, m = decode(data)
        except Fault as fault:
            raise Refused(fault.args[0]) from None
        return self.end(number).question(typ, m) if m is not None else self.end(number) and None

    def message(self, number, data, answer):
        try:
            typ, m = decode(data)
        except Fault as fault:
            raise Refused(fault.args[0]) from None
        if m is None:
            return
        it = self.end(number)
        test_answer(it.question(typ, m), answer)
        try:
            self.act(number, lambda: self.hear(it, typ, m), lambda it: typ not in UPDATES or bool(it.sent))
            it.see(typ, m)
        except Refused as refused:
            self.reply(number, typ, m, refused.numbers[0])
            raise
        finally:
            self.go_on()

    def hear(self, it, typ, m):
        """A link takes a message. One that opens a channel which another link of the node has fails it."""
        if it.line == "met" and not it.failure and (it.stage, typ) in (("accept", 33), ("created", 34)):
            txid, output = it.funding if typ == 33 else (m["funding_txid"], m["output_index"])
            if m["temporary_id"] == it.temporary and any(
                    other.id == id_of(txid, output) and other.stage in ("signed", "saved") for other in self.ends):
                it.failure, it.stage = (21,), "gone"
                raise Refused(21)
        it.handle(typ, m)

    def reply(self, number, typ, m, refusal):
        """A refusal of a message is told to the peer."""
        named = m.get("channel_id", m.get("temporary_id"))
        if self.ends[number].line != "down" and 20 <= refusal <= 36 and named is not None:
            self.post(number, encode(1 if refusal == 36 else 17, channel_id=named, data=b"refused %d" % refusal))

    def command(self, number, kind, u):
        """What a user commands: `kind` is none of a link's where it is the node's own."""
        it = self.end(number)
        if kind is None:
            raise Refused(40)
        try:
            self.act(number, lambda: it.obey(kind, u), lambda it: kind not in ("add", "fee"))
        finally:
            self.go_on()

    def sign(self):
        for number in range(len(self.ends)):
            try:
                self.command(number, "sign", {})
            except Refused:
                pass

    def set_height(self, height):
        if height > GREATEST_HEIGHT:
            raise Refused(40)
        self.books[NODE].height = height

    def expect(self, preimage, secret, amount):
        if len(preimage) != 32 or len(secret) != 32:
            raise Refused(81)
        self.books[NODE].expected[sha256(preimage).digest()] = preimage, secret[0], amount

    def saved(self, batch):
        if self.closed_batch is None or batch != self.batches:
            raise Refused(40)
        for number, (events, secrets) in self.closed_batch.items():
            self.saved_events[number] = events
            del self.ends[number].secrets[:secrets]
        self.saved_changes, self.closed_batch = self.closed_changes, None

    def first(self, number, message, with_host):
        """The first message of a channel, where the host has it so, by this number."""
        line = self.lines[number] if number < len(self.lines) else []
        if not line or line[0].number != message or line[0].with_host != with_host:
            raise Refused(40)
        return line[0]

    def fill(self, number, message, filling):
        first = self.first(number, message, "fill")
        if first.blank is not None:
            if not fits(first.blank, filling):
                raise Refused(81)
            first.blank = None
        else:
            if len(filling) > LONGEST_REASON:
                raise Refused(81)
            m = decode(first.data)[1]
            first.data, first.is_wrapped = encode(131, channel_id=m["channel_id"], id=m["id"], reason=filling), True
        first.with_host = None

    def sent(self, number, message):
        self.first(number, message, "send")
        self.lines[number].pop(0)

    def onion(self, payment_hash, onion, found, hop):
        """`hop` is what the bytes of `found` say."""
        if len(payment_hash) != 32 or len(onion) != 1366:
            raise Refused(81)
        name = payment_hash, onion
        if name not in self.names:
            raise Refused(40)
        if isinstance(found, Opened) and len(found.next_onion or b"") not in (0, 1366):
            raise Refused(81)
        self.opened[name] = hop
        was_loading, self.is_loading = self.is_loading, self.is_loading and not set(self.names) <= set(self.opened)
        if was_loading and not self.is_loading:
            for number in range(len(self.ends)):
                self.list_turn(number)
            self.go_on()

    def verdict(self, number, event, verdict):
        said = said_by(verdict)
        it = self.end(number)
        if not self.is_out[number] or it.decided != event:
            raise Refused(40)
        what, own, u = it.ledger[event]
        add = offer(u) if (what, own) == ("added", False) else None
        if add and said is None and u["onion"].hop is None:
            raise Refused(80)
        self.follow(NODE)
        mark = self.books[NODE].decide(it.channel, event, add, said)
        self.is_out[number] = False
        self.act(number, lambda: self.take(it))
        self.go_on_by(mark)
        if (what, own) == ("settled", False):
            self.forget(it.channel, u["id"])

    def forget(self, label, id):
        """An HTLC that came in is gone, and its onion with it, unless another one has that."""
        for name, htlcs in list(self.names.items()):
            if (label, id) in htlcs:
                htlcs.remove((label, id))
                if not htlcs:
                    del self.names[name]
                    self.opened.pop(name, None)

    def resume(self, number, event, verdict):
        said = said_by(verdict)
        held = self.books[NODE].held_by(self.ends[number].channel, event) if number < len(self.ends) else None
        if held and said is None and held.offer["hop"].hop is None:
            raise Refused(80)
        it = self.end(number)
        self.act(number, lambda: World.resume(self, it, event, said))
        self.go_on_by(held.mark)

    # ---- what is looked at

    def number_of(self, label):
        return next(number for number, it in enumerate(self.ends) if it.channel == label)

    def held(self):
        values = "id", "amount", "hash", "expiry"
        return [HeldHtlc(self.number_of(h.channel), h.mark[1], *map(h.offer.get, values))
                for h in self.books[NODE].held()]

    def look(self, number):
        return self.end(number).summary()

    def view(self, number, which):
        it = self.end(number)
        return it.worth(*it.commitments()[which])

    # ---- what is handed out

    def hand_out(self, item):
        """An item is handed out: Wrong where it isn't due."""
        {Batch: self.hand_batch, NodeMessage: self.hand_message, WrapItem: self.hand_wrap, OnionItem: self.hand_onion,
         NodeEvent: self.hand_event}[type(item)](item)

    def due(self):
        """What has to be handed out before nothing is."""
        if self.closed_batch is None and self.open_numbers:
            yield f"a batch of {sorted(self.open_numbers)}"
        for number, line in enumerate(self.lines):
            if self.may_leave(line):
                yield f"a message of {number}: {line[0]}"
        for name in self.to_ask | {it for it in map(self.new_name, range(len(self.ends))) if it}:
            yield f"an onion {name[0].hex()}"
        for number in range(len(self.ends)):
            if self.is_untold(number):
                yield f"an event of {number}: {self.ends[number].item(self.ends[number].decided)}"

    def may_leave(self, line):
        return bool(line) and line[0].with_host is None and line[0].need <= self.saved_changes

    def is_untold(self, number):
        """Its first undecided event is saved, and isn't with the host."""
        return not self.is_out[number] and self.ends[number].decided < self.saved_events[number]

    def new_name(self, number):
        """The onion that has to be asked for before a channel's event is told."""
        it = self.ends[number]
        what, own, u = it.ledger[it.decided] if self.is_untold(number) else (None, None, None)
        return u["onion"].name if (what, own) == ("added", False) and u["onion"].name not in self.names else None

    def hand_batch(self, item):
        want(self.closed_batch is None and self.open_numbers, "no batch is due:", item.number)
        want(item.number == self.batches + 1, "the batch is", item.number)
        numbers = [number for number, _ in item.saved]
        want(sorted(numbers) == sorted(self.open_numbers), "a batch of", numbers, "and not of", self.open_numbers)
        for number, saved in item.saved:
            it, record = self.ends[number], Record.from_saved(saved)
            told = record.channel, record.signatures, record.secrets
            want(told == (it.id, it.held_signatures, tuple(it.secrets)), "a record of", told, "and not", it.secrets)
        self.batches += 1
        self.closed_batch = {number: (self.ends[number].events, len(self.ends[number].secrets)) for number in numbers}
        self.closed_changes, self.open_numbers = self.changes, set()

    def hand_first(self, item, with_host):
        """The first message of a channel is handed out, by a number of its own."""
        line = self.lines[item.channel] if item.channel < len(self.lines) else []
        want(self.may_leave(line), "no message of the channel may leave:", item)
        first = line[0]
        is_new = first.number is None and item.message not in self.numbers
        want(is_new or first.number == item.message, "another number:", item)
        first.number, first.with_host = item.message, with_host
        self.numbers.add(item.message)
        return first

    def hand_message(self, item):
        first = self.hand_first(item, "fill" if isinstance(item.item, BlankItem) else "send")
        due = BlankItem(first.blank) if first.blank is not None else Send(first.data)
        want(item.item == due and (first.is_wrapped or not first.is_failure()), "a message", item, "and not", due)

    def hand_wrap(self, item):
        first = self.hand_first(item, "fill")
        want(first.is_failure() and not first.is_wrapped, "nothing to wrap:", item, first)
        it, m = self.ends[item.channel], decode(first.data)[1]
        incoming = next((u["onion"].name for u in it.in_record() if u["id"] == m["id"]), None)
        own, mark = m["reason"], self.settings.mark
        is_own = own.startswith(mark)
        due = WrapItem(item.channel, item.message, m["id"], incoming, not is_own, own[len(mark):] if is_own else own)
        want(item == due, "a failure", item, "and not", due)

    def hand_onion(self, item):
        name = item.incoming
        if name in self.to_ask:
            self.to_ask.remove(name)
            return
        want(name in map(self.new_name, range(len(self.ends))), "an onion that isn't new:", item)
        self.names[name] = set()

    def hand_event(self, item):
        number = item.channel
        want(number < len(self.ends) and self.is_untold(number), "no event of the channel is due:", item)
        it = self.ends[number]
        want(self.new_name(number) is None, "an event before its onion:", item)
        want(item.item == it.item(it.decided), "an event", item.item, "and not", it.item(it.decided))
        what, own, u = it.ledger[it.decided]
        if (what, own) == ("added", False):
            self.names[u["onion"].name].add((it.channel, u["id"]))
        self.is_out[number] = True


def said_by(verdict):
    """What the book hears of a verdict."""
    if isinstance(verdict, FailPayment):
        if verdict.failure_code not in CODES:
            raise Refused(81)
        return verdict.failure_code
    return HOLD if isinstance(verdict, Hold) else None


def fits(blank, filling):
    """Whether bytes fill a blank."""
    if isinstance(blank, SignaturesBlank):
        return len(filling) == 64 * (1 + len(blank.view.htlcs))
    return len(filling) == {RevocationBlank: 65, PointBlank: 33, CloseBlank: 64}[type(blank)]


def test_answer(question, answer):
    """Whether these bytes answer a question."""
    if question is None:
        if answer:
            raise Refused(81)
    elif not answer:
        raise Refused(80)
    elif len(answer) != 32 if isinstance(question, OwnSecretQuestion) else answer not in (b"\0", b"\1"):
        raise Refused(81)


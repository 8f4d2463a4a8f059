"""The host of a node, and its peers, for checks/fuzz/nodes: it writes a random list of calls that mostly fit what the
node is in."""
from hashlib import sha256
from importlib.machinery import SourceFileLoader
from importlib.util import module_from_spec, spec_from_loader
import os
import sys

HERE = os.path.dirname(os.path.abspath(__file__))
sys.path.insert(0, HERE)
from lnlink import (Add, Batch, BlankItem, Confirm, Decide, Fail, FailPayment, Fee, Forget, Fulfil, GoOn, Hold,
                    Malformed, NodeEvent, NodeMessage, NoMark, OnionItem, Opened, Resume, Settings, Shutdown, Sign,
                    WrapItem, WrongHmac, WrongKey, WrongPayload, WrongVersion)
from book_model import CODES, Hop, bytes_of
from links_model import CHAIN, ZEROS, Link, decode, encode, u64
from model import Refused
from nodes_calls import BAD, LATE, TRUE, Differs, keys_of


def script(name):
    """A script beside this file, which has no ending."""
    loader = SourceFileLoader(name, f"{HERE}/{name}")
    module = module_from_spec(spec_from_loader(name, loader))
    loader.exec_module(module)
    return module


Writer = script("links").Writer
HEIGHT = 100
LOOKS = ("look", "view", "held", "question", "store", "look_at_all", "damaged")  # which let nothing be handed out
FAULTS = {1: WrongVersion(), 2: WrongKey(), 3: WrongHmac(), 4: WrongPayload()}
FORBIDDEN = [Fulfil(0, ZEROS), Fail(0, b"no"), Malformed(0, ZEROS, 0xC005), Decide(0, NoMark()), Forget(0),
             Resume(0, NoMark()), Add(5000, ZEROS, 400, bytes(1366), (ZEROS, 0))]


class Peer(Link):
    """The peer's end of a channel. What it sends is in flight to the node while both are there."""

    def __init__(self, label, role, config):
        super().__init__(f"P{label}", role, keys_of(label, False), config)
        self.label, self.flight, self.is_wired, self.other = label, [], False, None
        self.node_down = True  # whether the node knows that there is no connection
        self.is_strange = False  # the node has taken a message that it hasn't sent
        self.short_id = None

    def put(self, data):
        self.sent.append(data)
        if self.is_wired:
            self.flight.append(data)

    def tries(self, act):
        """Whether it does something, which it may refuse."""
        self.sent, self.told = [], []
        try:
            act()
            return True
        except Refused:
            return False

    def takes(self, data):
        """A message of the node's. An honest one is refused by 36 alone."""
        typ, m = decode(data)
        self.sent, self.told = [], []
        try:
            self.handle(typ, m)
        except Refused as refused:
            number = refused.numbers[0]
            if 20 <= number <= 36:
                typ, told = (1 if number == 36 else 17), b"refused %d" % number
                self.put(encode(typ, channel_id=m.get("channel_id", ZEROS), data=told))
            return number
        return None

    def gives_up(self):
        """It tells that its channel has failed (BOLT 1, "The `error` and `warning` Messages")."""
        if self.is_wired and self.stage == "saved" and not self.failure:
            self.put(encode(17, channel_id=self.id, data=b"gives up"))
            self.failure = (37,)

    def live_of_node(self):
        """The node's HTLCs that it can remove."""
        removed = {u["id"] for u in self.own if u["kind"] in ("fulfil", "fail", "malformed")}
        return [u for u in self.taken[:self.acknowledged[1]] if u["kind"] == "add" and u["id"] not in removed]


class Host:
    """A host that calls a node and its model. What it was handed and hasn't dealt with yet is in `todo`."""

    def __init__(self, rng, both):
        self.rng, self.both, self.peers, self.todo = rng, both, [], []
        self.strange, self.old, self.hops, self.preimages, self.expected = Writer(rng), [], {}, {}, []
        self.payments, self.is_dry = 0, False
        self.trouble = rng.choice([0, 0.02, 0.05, 0.1, 0.25])
        self.hostile = rng.choice([0, 0, 0, 0.02, 0.1])
        self.closing = rng.choice([0] * 4 + [0.03, 0.2])
        self.late = rng.choice([0, 0.2, 0.5, 0.8])
        self.holding = rng.choice([0, 0.1, 0.5])
        self.settings = self.some_settings()

    # ---- a list

    def write(self):
        rng = self.rng
        self.call("load", self.settings, [])
        self.call("set_height", HEIGHT)
        for _ in range(rng.choice([2, 2, 3, 3, 4, 5])):
            self.open(len(self.peers))
        for _ in range(rng.choice([10, 25, 50, 80])):
            self.step()
        if rng.random() < 0.5:
            self.settle()
        self.call("look_at_all")

    def call(self, name, *values):
        told = self.both.call(name, *values)
        self.is_dry = told is None if name == "next" else self.is_dry and name in LOOKS
        return told

    def some_settings(self):
        rng = self.rng
        policy = rng.choice([0, 1000, 1000]), rng.choice([0, 100, 20000]), rng.choice([0, 40, 40])
        return Settings(*policy, sha256(b"mark").digest())

    def numbers(self):
        return range(len(self.both.model.ends))

    def label_of(self, number):
        return self.both.model.ends[number].channel

    def number_of(self, label):
        return next((number for number in self.numbers() if self.label_of(number) == label), None)

    def end(self, label):
        return next((it for it in self.both.model.ends if it.channel == label), None)

    # ---- channels

    def config(self):
        rng, least = self.rng, self.rng.choice([0, 200, 350])
        most = least + rng.choice([50, 200])
        limits = (rng.choice([1] * 6 + [0, 1000, 5001]), rng.choice([30] * 6 + [1, 2, 483]),
                  rng.choice([10**12] * 8 + [12000]), rng.choice([0, 0, 1, 10]))
        fees = rng.randrange(least, most + 1), least, most
        return dict(limits=limits, fees=fees, script=bytes([rng.randrange(9)]) * 3)

    def terms(self, label):
        """What a channel is opened with. Seldom it has the funding of another one."""
        rng, satoshis = self.rng, self.rng.choice([1000000] * 8 + [1000, 50])
        funding = sha256(b"funding %d" % (label if rng.random() < 0.99 else 0)).digest(), rng.choice([0, 1, 258])
        return dict(funding=funding, chain_hash=CHAIN, temporary_id=bytes([200 + label]) * 32,
                    funding_satoshis=satoshis, push_msat=satoshis * rng.choice([500] * 8 + [0, 1000]),
                    feerate_per_kw=253, channel_flags=1, records=[])

    def open(self, label):
        """A channel is opened, most often to the end."""
        rng, (role, of_peer) = self.rng, self.rng.choice([("funder", "fundee"), ("fundee", "funder")])
        opening = self.terms(label)
        funding, peer = opening["funding"], Peer(label, of_peer, self.config())
        self.peers.append(peer)
        if of_peer == "funder":
            peer.funding, peer.temporary = funding, opening["temporary_id"]
            peer.spec = dict(peer.common(), **{name: it for name, it in opening.items() if name != "funding"})
        if rng.random() < 0.03:
            bad = dict(self.config(), fees=(100, 200, 300))
            self.call("open", label, role, bad, opening)
        told = self.call("open", label, role, self.config(), opening)
        if role == "funder" and rng.random() < 0.3:
            for txid in rng.choice([[funding[0]], [ZEROS, funding[0]], [b"no", funding[0]]]):
                self.call("fund", told[1], txid, funding[1])
        self.connect(peer)
        self.opening(peer)

    def opening(self, peer):
        """The opening goes on, and both sides confirm it. Something may come in between."""
        rng = self.rng
        for _ in range(6):
            self.serve(peer)
            if rng.random() < self.trouble / 4:
                self.step()
        if self.end(peer.label) is None or self.end(peer.label).stage != "saved" or peer.stage != "saved":
            return
        peer.short_id = 1000 + peer.label
        self.call("command", self.number_of(peer.label), Confirm(u64(peer.short_id)))
        peer.tries(lambda: peer.obey("confirm", peer.short_id))
        for _ in range(2):
            self.serve(peer)

    def connect(self, peer):
        """Both sides learn of a connection."""
        number = self.number_of(peer.label)
        if number is None:
            return
        if not peer.node_down:
            self.lose(peer, number)
        if self.call("connect", number)[0] != "ok":
            return
        peer.node_down, peer.flight = False, []
        if peer.line == "down" and not peer.failure:
            peer.is_wired = True
            peer.is_wired = peer.tries(lambda: peer.connect()())

    def break_off(self, peer):
        """A connection is lost, of which the node may hear later."""
        peer.fall()
        peer.is_wired = False
        if self.rng.random() < 0.7:
            peer.flight = []
        number = self.number_of(peer.label)
        if number is not None and self.rng.random() < 0.7:
            self.lose(peer, number)

    def lose(self, peer, number):
        self.call("disconnect", number)
        if peer.is_wired:
            peer.fall()
        peer.node_down, peer.flight, peer.is_wired = True, [], False

    # ---- what goes on

    def serve(self, peer):
        """All that waits at one channel is dealt with."""
        for _ in range(3):
            self.drain()
            while peer.flight:
                self.deliver(peer)
            self.drain()
            while peer.inbox:
                self.take(peer)

    def drain(self):
        """All that the node hands out is dealt with."""
        while self.todo or not self.is_dry:
            item = self.call("next")
            if item is not None:
                self.todo.append(item)
            if item is None or self.rng.random() >= self.late:
                self.deal_all()

    def deal_all(self):
        while self.todo:
            self.deal(self.todo.pop(self.rng.randrange(len(self.todo)) if self.late else 0))

    def step(self):
        rng, luck = self.rng, self.rng.random()
        if rng.random() < self.trouble:
            self.troubles()
        peer = rng.choice(self.peers)
        if rng.random() < self.hostile and self.number_of(peer.label) is not None:
            self.intrude(peer, self.number_of(peer.label), None)
        if luck < 0.25:
            self.hand_out(rng.choice([1, 2, 5, 50]))
        elif luck < 0.4:
            peer = rng.choice([it for it in self.peers if it.flight] or [peer])
            for _ in range(rng.choice([1, 3, 10])):
                if peer.flight:
                    self.deliver(peer)
        elif luck < 0.5:
            peer = rng.choice([it for it in self.peers if it.inbox] or [peer])
            while peer.inbox and rng.random() < 0.9:
                self.take(peer)
        elif luck < 0.65:
            for _ in range(rng.choice([1, 1, 2, 4])):
                self.pay(rng.choice(self.peers))
        elif luck < 0.75:
            self.work(rng.choice([it for it in self.peers if it.live_of_node()] or [peer]))
        elif luck < 0.8:
            self.call("sign")
        elif luck < 0.84:
            self.resume()
        elif luck < 0.88:
            self.serve(peer)
        else:
            self.round()

    def round(self):
        """All sign, and all is delivered."""
        for peer in self.peers:
            peer.tries(lambda: peer.obey("sign", {}))
        self.call("sign")
        for peer in self.peers:
            self.serve(peer)

    def hand_out(self, most):
        rng = self.rng
        for _ in range(most):
            item = self.call("next")
            if item is None:
                break
            self.todo.append(item)
            while self.todo and rng.random() >= self.late:
                self.deal(self.todo.pop(rng.randrange(len(self.todo))))
        if rng.random() < 0.5:
            self.deal_all()

    # ---- items

    def deal(self, item):
        {Batch: self.save, NodeMessage: self.send, WrapItem: self.wrap, OnionItem: self.find, NodeEvent: self.decide}[
            type(item)](item)

    def numbered(self, kind, number):
        """None for the number of the last item of its kind."""
        return None if self.both.last.get(kind) == number else number

    def save(self, item):
        self.call("store")
        self.call("saved", self.numbered("batch", item.number))

    def send(self, item):
        message = self.numbered(("message", item.channel), item.message)
        if isinstance(item.item, BlankItem):
            if self.rng.random() < self.trouble / 3:
                self.call("fill", item.channel, message, BAD)
            self.call("fill", item.channel, message, TRUE)
            return
        told, peer = self.call("sent", item.channel, message), self.peers[self.label_of(item.channel)]
        if told[0] == "ok" and peer.is_wired:
            peer.inbox.append(item.item.message)

    def wrap(self, item):
        message = self.numbered(("message", item.channel), item.message)
        if self.rng.random() < self.trouble / 3:
            self.call("fill", item.channel, message, bytes(65492))
        self.call("fill", item.channel, message, (b"back " if item.came_back else b"own ") + item.failure[:1000])

    def find(self, item):
        payment_hash, onion = item.incoming
        hop = self.hops.get(onion) or Hop(dict(final=1), payment_hash)  # a stranger's: the payload has nothing
        hop.empty = False  # it can be opened
        found = Opened(hop.records(), hop.next_packet())
        if hop.fault:
            found = FAULTS[hop.fault] if hop.fault < 4 or self.rng.random() < 0.5 else Opened(hop.records())
        if self.rng.random() < self.trouble / 3:
            self.call("onion", payment_hash, onion, Opened(b"", b"short"), hop)
            self.call("onion", payment_hash[1:], onion, found, hop)
            self.call("onion", sha256(payment_hash).digest(), onion, found, hop)
        self.call("onion", payment_hash, onion, found, hop)

    def decide(self, item):
        place = item.channel, self.numbered(("event", item.channel), item.item.number)
        if self.rng.random() < self.trouble / 3:
            self.call("verdict", item.channel, item.item.number + 1, FailPayment(0x1007))
            self.call("verdict", *place, FailPayment(0x1234))
        told = self.call("verdict", *place, self.verdict())
        if told[1:] == (80,):  # its onion was handed out, and isn't answered
            self.todo.append(item)
            self.answer_onions()
        elif self.rng.random() < self.trouble / 3:
            self.call("verdict", *place, GoOn())

    def answer_onions(self):
        onions = [it for it in self.todo if isinstance(it, OnionItem)]
        self.todo = [it for it in self.todo if not isinstance(it, OnionItem)]
        for it in onions:
            self.find(it)

    def verdict(self):
        luck = self.rng.random()
        if luck < self.holding:
            return Hold()
        return FailPayment(self.rng.choice(CODES)) if luck > 0.95 else GoOn()

    def resume(self):
        held = self.call("held")[1]
        if held and self.rng.random() < 0.8:
            it = self.rng.choice(held)
            self.call("resume", it.channel, it.event, self.verdict())
        elif self.rng.random() < 0.3:
            self.call("resume", self.rng.randrange(6), self.rng.randrange(4), self.verdict())

    # ---- messages

    def deliver(self, peer):
        """The node takes the oldest message in flight, with the answer to the question about it."""
        data, number = peer.flight.pop(0), self.number_of(peer.label)
        self.old.append(data)
        if number is None:
            return
        it = self.end(peer.label)
        if self.rng.random() < self.hostile:
            self.intrude(peer, number, data)
        is_honest = not peer.is_strange and not it.failure and it.stage == "saved"
        told = self.give(peer, number, data)
        if is_honest and told not in (("ok", None), ("refused", 36), ("refused", 37)):
            raise Differs(f"the node refuses an honest peer by {told}")

    def give(self, peer, number, data):
        """A message with the true answer, which may come late or in a wrong form."""
        if self.rng.random() < 0.2:
            asked = self.call("question", number, data)
            if self.rng.random() < 2 * self.trouble:
                self.call("message", number, data, BAD)
                if asked[0] == "ok" and asked[1]:
                    self.call("message", number, data, LATE)
        return self.call("message", number, data, TRUE)

    def intrude(self, peer, number, data):
        """A message of no honest peer, made of one in flight, of an old one, or for the purpose."""
        peer.is_strange = True
        luck, it = self.rng.random(), self.end(peer.label)
        if luck > 0.4 or not data:
            data = self.rng.choice(self.old[-30:]) if luck < 0.7 and self.old else self.made(peer, it)
        self.give(peer, number, self.strange.mutated(data))

    def made(self, peer, it):
        side, it.other = it.other, peer
        try:
            return self.strange.made(it)
        finally:
            it.other = side

    def take(self, peer):
        number = peer.takes(peer.inbox.pop(0))
        if number not in (None, 36, 37) and not peer.is_strange:
            raise Differs(f"an honest peer refuses by {number}")

    # ---- what peers do

    def pay(self, peer):
        """A payment by a peer, over the node or to it; or one of the node's own."""
        rng, number = self.rng, self.payments
        if rng.random() < 0.1:
            channel = self.number_of(peer.label)
            if channel is not None:
                amount = rng.choice([5000, 0, 6000, 10**12])
                self.call("command", channel, Add(amount, sha256(b"own %d" % number).digest(), 400, bytes(1366)))
            return
        if rng.random() < 0.9:
            self.payments = number = (number + 1) % 256
        preimage = bytes_of(number)
        amount, expiry = rng.choice([5000] * 9 + [6000, 6000, 1, 10**9]), HEIGHT + rng.choice([40] * 30 + [2, 3000])
        target = rng.choice([it for it in self.peers if it is not peer or rng.random() < 0.1] or [peer])
        settings = self.settings
        fee = settings.fee_base_msat + amount * settings.fee_proportional_millionths // 1000000
        n = dict(forward_amount=amount, forward_expiry=expiry, short_id=target.short_id or 7, final=0,
                 secret=1, total=amount)
        if rng.random() < 0.2:
            n["final"], fee = 1, 0
            if rng.random() < 0.8:
                self.expected.append((preimage, bytes([1]) * 32, rng.choice([amount] * 8 + [amount + 1])))
                self.call("expect", *self.expected[-1])
        if rng.random() < 0.1:
            n.update(rng.choice([dict(fault=rng.choice([1, 2, 3, 4])), dict(short_id=7), dict(secret=2),
                                 dict(total=amount + 1)]))
        if rng.random() < 0.05:
            n = {name: it for name, it in n.items() if name in ("final", "total", "fault") or rng.random() < 0.5}
        offered = amount + fee - (rng.random() < 0.05), expiry + settings.cltv_expiry_delta - (rng.random() < 0.05)
        self.offer(peer, n, preimage, *offered)

    def offer(self, peer, n, preimage, amount, expiry):
        payment_hash = sha256(preimage).digest()
        hop = Hop(n, payment_hash)
        onion = bytes(hop.packet)
        self.hops[onion], self.preimages[payment_hash] = hop, preimage
        for _ in range(self.rng.choice([1] * 9 + [2])):
            u = dict(kind="add", amount=max(amount, 0), hash=payment_hash, expiry=expiry, onion=onion)
            peer.tries(lambda: peer.obey("add", u))

    def work(self, peer):
        """A peer removes some of what the node has offered, or signs."""
        rng = self.rng
        for u in peer.live_of_node():
            if rng.random() < 0.7:
                self.remove(peer, u)
        if rng.random() < 0.1:
            peer.tries(lambda: peer.obey("fee", dict(kind="fee", rate=rng.choice([253, 300, 1000]))))
        if rng.random() < 0.7:
            peer.tries(lambda: peer.obey("sign", {}))
        if rng.random() < self.closing:
            peer.tries(lambda: peer.obey("shutdown", dict(script=b"peer")))

    def remove(self, peer, u):
        rng, preimage = self.rng, self.preimages.get(u["hash"])
        luck = rng.random()
        if preimage and luck < 0.7:
            what = dict(kind="fulfil", id=u["id"], preimage=preimage, hash=u["hash"])
        elif luck < 0.9:
            what = dict(kind="fail", id=u["id"], reason=bytes([7]) * rng.choice([0, 2, 30, 292]))
        else:
            sha, code = sha256(u["onion"]).digest(), rng.choice([0xC004, 0xC005, 0xC006])
            what = dict(kind="malformed", id=u["id"], sha=sha, code=code)
        peer.tries(lambda: peer.obey(what["kind"], what))

    # ---- troubles

    def troubles(self):
        rng, peer = self.rng, self.rng.choice(self.peers)
        luck = rng.random()
        if luck < 0.25:
            self.break_off(peer)
        elif luck < 0.45:
            self.connect(peer)
        elif luck < 0.61:
            self.dies()
        elif luck < 0.63:
            peer.gives_up()
        elif luck < 0.73:
            self.misuses()
        elif luck < 0.83:
            self.commands(peer)
        elif luck < 0.87:
            self.todo += [it for it in [self.call("short")] if it]
        elif luck < 0.91:
            self.call("set_height", rng.choice([HEIGHT, HEIGHT, HEIGHT + 1, 96, 400000001]))
        elif luck < 0.94:
            self.call("look_at_all")
        elif luck < 0.96:
            self.call("damaged", peer.label, rng.choice(["cut", "longer", "twice", "changed"]))
        elif luck < 0.98 and len(self.peers) < 5:
            self.open(len(self.peers))
        else:
            for it in self.peers:
                self.connect(it)

    def dies(self):
        """The node is dropped, at times between a save and what it allows, and comes back of what was saved."""
        rng = self.rng
        if rng.random() < 0.3:
            self.call("store")
        for peer in self.peers:
            peer.fall()
            peer.flight, peer.is_wired, peer.node_down = [], False, True
        self.todo = []
        labels = sorted(self.both.disk)
        rng.shuffle(labels)
        if rng.random() < 0.2:
            self.settings = self.some_settings()
        self.call("load", self.settings, labels)
        if rng.random() < 0.9:
            self.call("set_height", HEIGHT)
        for expected in self.expected:
            if rng.random() < 0.9:
                self.call("expect", *expected)
        if rng.random() < 0.2:
            self.connect(rng.choice(self.peers))
        if rng.random() < 0.3:
            self.resume()
        if rng.random() < 0.9:
            self.hand_out(50)
            if rng.random() < 0.8:
                self.drain()
            for peer in self.peers:
                if rng.random() < 0.8:
                    self.connect(peer)

    def misuses(self):
        """A call that doesn't fit, or fits by chance."""
        rng, number, other = self.rng, self.rng.randrange(7), self.rng.randrange(60)
        hash_of_none, verdict = rng.choice([ZEROS, b"no"]), rng.choice([GoOn(), Hold(), FailPayment(1)])
        self.call(*rng.choice([
            ("saved", other % 9), ("fill", number, other, BAD), ("sent", number, other), ("view", 9, 0), ("look", 9),
            ("onion", ZEROS, bytes(1366), WrongKey(), None), ("verdict", number, other % 9, Hold()), ("connect", 9),
            ("resume", number, other % 9, verdict), ("disconnect", 9), ("command", 9, Sign()),
            ("message", 9, encode(1, channel_id=ZEROS, data=b""), LATE), ("expect", hash_of_none, b"short", 1),
            ("fund", number, ZEROS, 1), ("question", 9, encode(18, num_pong_bytes=0, ignored=b""))]))

    def commands(self, peer):
        """A user's commands, and some that are none of a user's."""
        rng, number = self.rng, self.number_of(peer.label)
        if number is None:
            return
        command = rng.choice([Confirm(u64(1000 + peer.label)), Fee(rng.choice([253, 500])), Sign(),
                              rng.choice(FORBIDDEN), rng.choice(FORBIDDEN), Add(10**15, ZEROS, 400, bytes(1366)),
                              Add(5000, ZEROS, 500000000, bytes(1366))])
        if rng.random() < self.closing * 3:
            command = Shutdown(b"script")
        self.call("command", number, command)

    # ---- the end

    def settle(self):
        """What can be brought to an end is: all connect, and go on until nothing moves."""
        self.trouble = self.hostile = self.closing = self.holding = 0
        self.drain()
        for peer in self.peers:
            if peer.node_down or peer.line == "down":
                self.connect(peer)
        moved = None
        while moved != self.both.told["items"]:
            moved = self.both.told["items"]
            for peer in self.peers:
                for u in peer.live_of_node():
                    self.remove(peer, u)
            for it in self.call("held")[1]:
                self.call("resume", it.channel, it.event, GoOn())
            self.round()
        self.is_over()

    def is_over(self):
        """Where all peers were honest and all channels work, no payment is left, and both ends have the same."""
        ends = [(peer, self.end(peer.label)) for peer in self.peers]
        ends = [(peer, it) for peer, it in ends if peer.stage == "saved" and it is not None and it.stage == "saved"]
        if any(peer.is_strange or peer.failure or it.failure or peer.shut or it.shut for peer, it in ends):
            return
        if any(peer.line != "met" for peer in self.peers):
            return
        self.both.told["settled"] += 1
        for peer, it in ends:
            own, taken = it.own[:it.current[0]], it.taken[:it.current[1]]
            its, mine = peer.own[:peer.current[0]], peer.taken[:peer.current[1]]
            if it.is_ready() and (it.live(own, taken) or it.live(taken, own)):
                raise Differs(f"payments of channel {peer.label} don't come to an end")
            if it.balance(it.role, own, taken) != peer.balance(it.role, mine, its):
                raise Differs(f"the ends of channel {peer.label} have other balances")

"""A plain model of the two links of one channel, down to the bytes of their messages, written from the rules of
docs/PROTOCOL.md and docs/FORMATS.md and from the standard alone: its own reader of messages, whole lists of updates,
toy keys. `Links().call(line)` answers a line as crates/ln_link_calls has to. checks/fuzz/links compares the two."""
from functools import partial
from hashlib import sha256
import os
import sys

sys.path.insert(0, os.path.dirname(os.path.abspath(__file__)))
from model import End, Refused

TEMPORARY, TXID, ZEROS, CHAIN = bytes([255]) * 32, bytes([9]) * 32, bytes(32), bytes([6]) * 32
OUTPUT = 258
ID = bytes([9]) * 30 + bytes([8, 11])  # of this output of that transaction
# what a line doesn't say of a side: its first point's byte, dust limit, delay and depth
OWN = {"funder": (0x11, 546, 144, 3), "fundee": (0x21, 354, 6, 7)}
# what a line leaves out of a channel: satoshis, pushed, seed, the length of its type, and of each side its minimum, count,
# sum and reserve, then its fee, the least and the greatest one
SIDE = "minimum accepted in_flight reserve fee least greatest".split()
USUAL = dict(funding=1000000, push=0, seed=1, types=0,
             **dict(zip([f"a_{it}" for it in SIDE], [1, 30, 10**12, 0, 300, 200, 400])),
             **dict(zip([f"b_{it}" for it in SIDE], [1, 30, 10**12, 0, 400, 350, 500])))
MARKS = "none forward fail malformed fulfil held held_next".split()
POINTS = "funding_pubkey revocation_basepoint payment_basepoint delayed_payment_basepoint htlc_basepoint".split()
SIX = [(name, 33) for name in POINTS + ["first_per_commitment_point"]]

# the fields of each type: so many bytes, a number of so many bytes ("8"), bytes behind a length ("v"), signatures ("list")
FORMS = {
    1: [("channel_id", 32), ("data", "v")],
    16: [("global_features", "v"), ("features", "v")],
    17: [("channel_id", 32), ("data", "v")],
    18: [("num_pong_bytes", "2"), ("ignored", "v")],
    19: [("ignored", "v")],
    32: [("chain_hash", 32), ("temporary_id", 32), ("funding_satoshis", "8"), ("push_msat", "8"), ("dust_limit_satoshis", "8"),
         ("in_flight", "8"), ("reserve", "8"), ("minimum", "8"), ("feerate_per_kw", "4"), ("to_self_delay", "2"),
         ("accepted", "2")] + SIX + [("channel_flags", "1")],
    33: [("temporary_id", 32), ("dust_limit_satoshis", "8"), ("in_flight", "8"), ("reserve", "8"), ("minimum", "8"),
         ("minimum_depth", "4"), ("to_self_delay", "2"), ("accepted", "2")] + SIX,
    34: [("temporary_id", 32), ("funding_txid", 32), ("output_index", "2"), ("signature", 64)],
    35: [("channel_id", 32), ("signature", 64)],
    36: [("channel_id", 32), ("second_point", 33)],
    38: [("channel_id", 32), ("script", "v")],
    39: [("channel_id", 32), ("fee_satoshis", "8"), ("signature", 64)],
    128: [("channel_id", 32), ("id", "8"), ("amount", "8"), ("hash", 32), ("expiry", "4"), ("onion", 1366)],
    130: [("channel_id", 32), ("id", "8"), ("preimage", 32)],
    131: [("channel_id", 32), ("id", "8"), ("reason", "v")],
    132: [("channel_id", 32), ("signature", 64), ("htlc_signatures", "list")],
    133: [("channel_id", 32), ("secret", 32), ("next_point", 33)],
    134: [("channel_id", 32), ("rate", "4")],
    135: [("channel_id", 32), ("id", "8"), ("sha", 32), ("code", "2")],
    136: [("channel_id", 32), ("n", "8"), ("r", "8"), ("secret", 32), ("point", 33)],
}
KNOWN_EVEN = {32: {0}, 33: {0}}
LENGTHS = {(36, 1): 8, (39, 1): 16}
OF_A_CHANNEL = {35, 36, 38, 39, 128, 130, 131, 132, 133, 134, 135, 136}
UPDATES = {128: "add", 130: "fulfil", 131: "fail", 134: "fee", 135: "malformed"}
TYPES = {kind: typ for typ, kind in UPDATES.items()}
REMOVALS = ("fulfil", "fail", "malformed")


class Fault(Exception):
    pass


# ---- bytes

def bigsize(data, at):
    """The number at a place, and the place behind it."""
    if at == len(data):
        raise Fault(1)
    first, size = data[at], {253: 2, 254: 4, 255: 8}.get(data[at], 0)
    if not size:
        return first, at + 1
    if at + 1 + size > len(data):
        raise Fault(1)
    number = int.from_bytes(data[at + 1:at + 1 + size], "big")
    if number < {2: 253, 4: 2**16, 8: 2**32}[size]:
        raise Fault(2)
    return number, at + 1 + size


def bigsize_bytes(number):
    for least, first, size in ((2**32, 255, 8), (2**16, 254, 4), (253, 253, 2)):
        if number >= least:
            return bytes([first]) + number.to_bytes(size, "big")
    return bytes([number])


def records_at(data, at, even):
    records, last = [], -1
    while at < len(data):
        typ, at = bigsize(data, at)
        if typ <= last:
            raise Fault(3)
        count, at = bigsize(data, at)
        if at + count > len(data):
            raise Fault(5)
        if typ % 2 == 0 and typ not in even:
            raise Fault(4)
        records.append((typ, data[at:at + count]))
        last, at = typ, at + count
    return records


def record_bytes(records):
    return b"".join(bigsize_bytes(typ) + bigsize_bytes(len(value)) + value for typ, value in records)


def decode(data):
    """The type and the fields of a message, None for those of one that is read past."""
    def part(size):
        nonlocal at
        if at + size > len(data):
            raise Fault(1)
        at += size
        return data[at - size:at]

    at = 0
    if len(data) > 65535:
        raise Fault(7)
    typ = int.from_bytes(part(2), "big")
    if typ not in FORMS:
        if typ % 2 or 256 <= typ <= 265:
            return typ, None
        raise Fault(6)
    m = {}
    for name, kind in FORMS[typ]:
        if kind == "v":
            m[name] = part(int.from_bytes(part(2), "big"))
        elif kind == "list":
            m[name] = [part(64) for _ in range(int.from_bytes(part(2), "big"))]
        elif isinstance(kind, str):
            m[name] = int.from_bytes(part(int(kind)), "big")
        else:
            m[name] = part(kind)
    m["records"] = records_at(data, at, KNOWN_EVEN.get(typ, ()))
    if any(len(value) != LENGTHS.get((typ, kind), len(value)) for kind, value in m["records"]):
        raise Fault(8)
    return typ, m


def encode(typ, records=(), **m):
    parts = [typ.to_bytes(2, "big")]
    for name, kind in FORMS[typ]:
        if kind == "v":
            parts += [len(m[name]).to_bytes(2, "big"), m[name]]
        elif kind == "list":
            parts += [len(m[name]).to_bytes(2, "big"), *m[name]]
        else:
            parts.append(m[name].to_bytes(int(kind), "big") if isinstance(kind, str) else m[name])
    return b"".join(parts) + record_bytes(records)


# ---- toy keys

def u64(number):
    return number.to_bytes(8, "big")


class Keys:
    def __init__(self, seed, own, peer):
        self.seed, self.tag, self.peer_tag = bytes([(seed + own) % 256]) * 32, bytes([own]) * 32, bytes([peer]) * 32

    def secret(self, number):
        return sha256(self.seed + u64(number)).digest()

    def point(self, number):
        return point_of(self.secret(number))


def point_of(secret):
    return b"\2" + sha256(secret).digest()


def signature(tag, number, point, view):
    return sha256(b"\0" + tag + u64(number) + point + view).digest() * 2


def close_signature(tag, fee):
    return sha256(b"\1" + tag + u64(fee)).digest() * 2


# ---- one end

class Link(End):
    """One end, as checks/fuzz/model.py has it, from its first message on and with what its messages carry."""

    def __init__(self, name, role, keys, config):
        super().__init__(name, role, None, config["fees"])
        self.keys, self.config, self.stage = keys, config, "accept" if role == "funder" else "open"
        self.script, self.peer_script, self.rate = config["script"], None, 253
        self.id, self.temporary = None, TEMPORARY if role == "funder" else None
        self.funding = TXID, OUTPUT  # which a funder names
        self.points, self.last_secret = None, None  # of the peer: the points of its acknowledged commitment and of the next
        self.pending, self.sent, self.told = [], [], []
        self.line = "down"
        self.on_hold = {}  # the id of each HTLC that is held, by the number of its event

    # ---- what it hands out

    def put(self, data):
        self.sent.append(data)
        if self.other.line != "down":
            self.other.inbox.append(data)

    def send(self, words, kind=None, update=None, fee=None, range=None, n=None, r=None):
        if kind == "ready":
            data = encode(36, channel_id=self.id, second_point=self.keys.point(1))
        elif kind == "shutdown":
            data = encode(38, channel_id=self.id, script=self.script)
        elif kind == "closing":
            data = encode(39, [(1, u64(range[0]) + u64(range[1]))], channel_id=self.id, fee_satoshis=fee,
                          signature=close_signature(self.keys.tag, fee))
        elif kind == "update":
            data = encode(TYPES[update["kind"]], **dict(update, channel_id=self.id))
        elif kind == "sign":
            view, count = self.view(self.own[:self.signed[0]], self.taken[:self.signed[1]])
            sig = signature(self.keys.tag, self.signatures, self.points[1], view)
            data = encode(132, channel_id=self.id, signature=sig, htlc_signatures=[sig] * count)
        elif kind == "revoke":
            data = encode(133, channel_id=self.id, secret=self.keys.secret(self.commitment - 1),
                          next_point=self.keys.point(self.commitment + 1))
        else:
            data = encode(136, channel_id=self.id, n=n, r=r, secret=self.last_secret or ZEROS, point=self.keys.point(self.commitment))
        self.put(data)

    def event(self, words):
        self.told.append(f"event {self.events} {words}")
        self.pending.append((self.events, words))
        self.events += 1

    def close(self, fee):
        super().close(fee)
        self.told.append(f"closed {fee}")

    def view(self, own, peer):
        """The bytes of a view, and how many HTLCs are live in it."""
        mine, yours = (own, peer) if self.role == "funder" else (peer, own)
        live = [(0, u) for u in self.live(mine, yours)] + [(1, u) for u in self.live(yours, mine)]
        rate = ([self.rate] + [u["rate"] for u in mine if u["kind"] == "fee"])[-1]
        data = u64(self.balance("funder", mine, yours)) + u64(self.balance("fundee", yours, mine))
        data += rate.to_bytes(4, "big") + len(live).to_bytes(4, "big")
        for owner, u in live:
            data += bytes([owner]) + u64(u["id"]) + u64(u["amount"]) + u["hash"] + u["expiry"].to_bytes(4, "big")
        return data, len(live)

    # ---- the opening

    def take_opening(self, typ, m):
        if typ != {"open": 32, "accept": 33, "created": 34, "signed": 35}.get(self.stage):
            raise Refused(21)
        {32: self.take_open, 33: self.take_accept, 34: self.take_created, 35: self.take_signed}[typ](m)

    def agree(self, satoshis, push, funder, fundee, point):
        if not 1 <= satoshis <= 2100000000000000 or push > 1000 * satoshis or funder[1] > 483 or fundee[1] > 483:
            raise Refused(21)
        self.opening = {"satoshis": satoshis, "push": push, "limits": {"funder": funder, "fundee": fundee}}
        self.points = [point, bytes(33)]

    def take_open(self, m):
        limits = self.config["limits"]
        if m["chain_hash"] != CHAIN:
            raise Refused(21)
        self.agree(m["funding_satoshis"], m["push_msat"], asked(m), limits, m["first_per_commitment_point"])
        self.rate, self.temporary, self.stage = m["feerate_per_kw"], m["temporary_id"], "created"
        self.put(encode(33, channel_types(m), temporary_id=self.temporary, minimum_depth=OWN[self.role][3], **self.common()))

    def take_accept(self, m):
        wanted = channel_types(self.spec)
        if m["temporary_id"] != self.temporary or (wanted and channel_types(m) != wanted):
            raise Refused(21)
        self.agree(self.spec["funding_satoshis"], self.spec["push_msat"], self.config["limits"], asked(m), m["first_per_commitment_point"])
        txid, output = self.funding
        self.id, self.stage = id_of(txid, output), "signed"
        self.put(encode(34, temporary_id=self.temporary, funding_txid=txid, output_index=output,
                        signature=self.first_signature()))

    def common(self):
        """What both messages say of a side."""
        minimum, accepted, in_flight, reserve = self.config["limits"]
        first, dust, delay, _ = OWN[self.role]
        points = {name: bytes([first + n]) * 33 for n, name in enumerate(POINTS)}
        return dict(points, dust_limit_satoshis=dust, in_flight=in_flight, reserve=reserve, minimum=minimum, to_self_delay=delay,
                    accepted=accepted, first_per_commitment_point=self.keys.point(0))

    def first_signature(self):
        return signature(self.keys.tag, 0, self.points[0], self.view([], [])[0])

    def test_first(self, sig):
        if sig != signature(self.keys.peer_tag, 0, self.keys.point(0), self.view([], [])[0]):
            raise Refused(31)

    def take_created(self, m):
        if m["temporary_id"] != self.temporary:
            raise Refused(21)
        self.test_first(m["signature"])
        self.id, self.stage = id_of(m["funding_txid"], m["output_index"]), "saved"
        self.put(encode(35, channel_id=self.id, signature=self.first_signature()))

    def take_signed(self, m):
        self.test_first(m["signature"])
        self.stage = "saved"

    # ---- messages

    def is_meant(self, other):
        return (other == ZEROS or (self.stage in ("signed", "saved") and other == self.id)
                or (self.stage in ("accept", "created", "signed") and other == self.temporary))

    def handle(self, typ, m):
        if self.halted:
            raise Refused(62)
        if self.failure:
            raise Refused(*self.failure)
        try:
            self.hear(typ, m)
        except Refused as refused:
            number = refused.numbers[0]
            if 21 <= number <= 35 or number == 37:
                self.failure = refused.numbers
                if self.stage != "saved":
                    self.stage = "gone"
            raise

    def hear(self, typ, m):
        if typ in (1, 16, 18, 19) or (typ == 17 and not self.is_meant(m["channel_id"])):
            return
        if typ == 17:
            raise Refused(37)
        if typ in OF_A_CHANNEL and not (self.stage in ("signed", "saved") and m["channel_id"] == self.id):
            raise Refused(20)
        if self.line == "down":
            raise Refused(21)
        if self.stage != "saved":
            return self.take_opening(typ, m)
        if (self.line == "waiting") != (typ == 136) or typ in (32, 33, 34, 35):
            raise Refused(21)
        held = None
        if typ in UPDATES:
            self.take_update(dict(update=self.update_of(typ, m)))
        else:
            held = {36: self.take_ready, 38: self.take_shutdown, 39: self.take_closing, 132: self.take_sign,
                    133: self.take_revoke, 136: self.take_reestablish}[typ](m)
        self.tail()
        if held:
            told, self.told = self.told, []
            self.tell(*held)
            self.told = [f"committed {self.current[0]} {self.acknowledged[1]}"] + self.told + told

    @staticmethod
    def update_of(typ, m):
        u = {k: v for k, v in m.items() if k not in ("channel_id", "records")}
        if typ == 130:
            u["hash"] = sha256(u["preimage"]).digest()
        return dict(u, kind=UPDATES[typ])

    def take_ready(self, m):
        if not self.ready_taken and self.closed is None:
            self.ready_taken, self.points[1] = True, m["second_point"]

    def take_sign(self, m):
        if not self.is_ready():
            raise Refused(21)
        view, count = self.view(self.own[:self.acknowledged[0]], self.taken)
        sig = signature(self.keys.peer_tag, self.commitment + 1, self.keys.point(self.commitment + 1), view)
        if m["signature"] != sig or m["htlc_signatures"] != [sig] * count:
            raise Refused(31)
        super().take_sign(m)
        return self.held

    def take_revoke(self, m):
        if self.signatures == self.revocations:
            raise Refused(33)
        if point_of(m["secret"]) != self.points[0]:
            raise Refused(32)
        super().take_revoke(m)
        self.points, self.last_secret = [self.points[1], m["next_point"]], m["secret"]
        return self.held

    def take_shutdown(self, m):
        if self.peer_script is not None and self.peer_script != m["script"]:
            raise Refused(21)
        self.peer_shut, self.peer_script = True, m["script"]

    def take_closing(self, m):
        if not self.has_begun():
            raise Refused(21)
        fee = m["fee_satoshis"]
        if m["signature"] != close_signature(self.keys.peer_tag, fee):
            raise Refused(31)
        least, most = 1, 0  # no fee is within
        for typ, value in m["records"]:
            if typ == 1:
                least, most = int.from_bytes(value[:8], "big"), int.from_bytes(value[8:], "big")
        super().take_closing(dict(fee=fee, range=(least, most)))

    def take_reestablish(self, m):
        n, r = m["n"], m["r"]
        is_known = r == 0 or m["secret"] == self.keys.secret(r - 1)
        if not (n == self.signatures + 1 or n == self.signatures == self.revocations + 1):
            raise Refused(34, *(self.lost_data(n, r) if is_known else []))
        if r not in (self.commitment, self.commitment - 1):
            raise Refused(34, *(self.lost_data(n, r) if is_known else []))
        if not is_known:
            raise Refused(32)
        super().take_reestablish(m)

    # ---- commands

    def obey(self, kind, u):
        if self.halted:
            raise Refused(62)
        if kind in ("decide", "resume", "forget"):
            if self.stage != "saved":
                raise Refused(40)
            if kind == "decide":
                self.decide(u)
            if kind == "resume":
                self.resume(u)
            return
        if self.failure:
            raise Refused(*self.failure)
        if self.stage != "saved":
            raise Refused(40)
        if kind == "shutdown" and self.line == "met" and not self.shut and self.acknowledged[0] == len(self.own):
            if len(u["script"]) > 65499:
                raise Refused(44, 7)
            self.script = u["script"]
        self.command(kind, u)
        if kind == "sign":
            self.told.append(f"signed {self.signed[0]}")

    def decide(self, u):
        if not self.pending or self.pending[0][0] != u["event"]:
            raise Refused(40)
        event, (what, whose, *words) = self.pending[0][0], self.pending[0][1].split(" ")
        if u["mark"] != "none" and (what, whose) != ("added", "peer") or u["mark"] == "held_next":
            raise Refused(40)
        self.pending.pop(0)
        if u["mark"] == "held":
            self.on_hold[event] = words[0]
        if (what, whose) == ("settled", "peer"):
            self.on_hold = {n: id for n, id in self.on_hold.items() if id != words[0]}

    def resume(self, u):
        if u["event"] not in self.on_hold or u["mark"] in ("none", "held", "held_next"):
            raise Refused(40)
        del self.on_hold[u["event"]]

    def test_removal(self, u):
        super().test_removal(u)
        if u["kind"] == "fail" and len(u["reason"]) > 65491:
            raise Refused(44, 7)

    # ---- connections

    def fall(self):
        if self.line != "down":
            if self.stage == "saved":
                self.go_down()
            else:
                self.stage = "gone"
            self.line = "down"
        self.inbox = []

    def connect(self):
        if self.halted:
            raise Refused(62)
        if self.line == "down" and self.stage in ("accept", "open"):
            self.line = "met"
            return lambda: self.put(encode(32, **self.spec)) if self.role == "funder" else None
        if self.line != "down" or self.stage != "saved":
            raise Refused(40)
        return self.come_up()

    def load(self):
        if self.stage != "saved":
            return "no record"
        self.fall()
        self.halted = False
        return "loaded"

    # ---- how it stands

    def stand(self):
        line = self.line + (" halted" if self.halted else "")
        if self.stage != "saved":
            words = " ".join(["refused", *map(str, self.failure)]) if self.failure else "open"
            return f"{line} signed 0 committed 0 peer 0 balance 0/0 live 0 {words}"
        words = self.line_at_end().split(" ", 1)[1]
        return f"{line} {words}".replace("failed", "refused")


def refuse(refused):
    raise refused


def id_of(txid, output):
    """The id of a channel by its funding (BOLT 2, "Definition of `channel_id`")."""
    return txid[:30] + (int.from_bytes(txid[30:], "big") ^ output).to_bytes(2, "big")


def asked(m):
    return m["minimum"], m["accepted"], m["in_flight"], m["reserve"]


def channel_types(m):
    return [it for it in m["records"] if it[0] == 1]


# ---- lines

def part(word):
    """Bytes in hexadecimal, or one so many times, as in 00x1366."""
    digits, _, count = word.partition("x")
    return bytes.fromhex(digits) * int(count or 1)


def command_of(word, n):
    """A command's update, or what else it brings."""
    if word == "add":
        preimage = bytes([n["preimage"] % 256]) * 32
        return dict(kind="add", amount=n["amount"], hash=sha256(preimage).digest(), expiry=n["expiry"], onion=bytes(1366))
    if word == "fulfil":
        preimage = bytes([n["preimage"] % 256]) * 32
        return dict(kind="fulfil", id=n["id"], preimage=preimage, hash=sha256(preimage).digest())
    if word == "fail":
        return dict(kind="fail", id=n["id"], reason=bytes([1]) * n["length"])
    if word == "malformed":
        return dict(kind="malformed", id=n["id"], sha=ZEROS, code=n["code"])
    if word == "fee":
        return dict(kind="fee", rate=n["rate"])
    if word == "shutdown":
        return dict(script=bytes([n["byte"]]) * n["length"])
    return n if word in ("decide", "resume") else {}


COMMANDS = ("confirm", "add", "fulfil", "fail", "malformed", "fee", "sign", "shutdown", "decide", "resume", "forget")


class Links:
    """The two links, and what is in flight to each."""

    def __init__(self):
        self.ends = {}

    def call(self, line):
        word, *words = line.split(" ")
        n = dict(it.split("=") for it in words)
        end, data = n.pop("end", None), n.pop("bytes", "")
        n = {name: it if name == "mark" else int(it) for name, it in n.items()}
        if word in ("new", "made", "ready"):
            return self.new(word, *{**USUAL, **n}.values())
        it = self.ends[end]
        if word == "pass":
            return self.passed(it)
        if word == "give":
            return self.give(it, b"".join(map(part, data.split(","))))
        if word == "deliver":
            return self.deliver(it)
        if word == "front":
            return it.inbox[0].hex() if it.inbox else "nothing"
        if word in COMMANDS:
            return self.answer(it, lambda: it.obey(word, command_of(word, n)))
        if word in ("connect", "up"):
            ends = [it, it.other][:1 + (word == "up")]
            greetings = [self.greeting(end) for end in ends]
            return " ".join([self.answer(end, greet) for end, greet in zip(ends, greetings)])
        if word == "pending":
            return "".join(["pending"] + [f" event {n} {told}" for n, told in it.pending])
        if word in ("drop", "halt"):
            it.fall()
            it.halted = it.halted or word == "halt"
            return "done"
        return it.load() if word == "load" else it.stand()

    @staticmethod
    def greeting(it):
        """A link's connection comes: what makes it send what it begins with, or refuse."""
        try:
            return it.connect()
        except Refused as refused:
            return partial(refuse, refused)

    def deliver(self, it):
        return self.give(it, it.inbox.pop(0)) if it.inbox else "nothing"

    def passed(self, first):
        told = []
        for it in [first, first.other] * 100:
            told += [it.name, self.deliver(it)] if it.inbox else []
        return " ".join(told + ["passed"])

    def new(self, word, satoshis, push, seed, types, *sides):
        sides = [dict(limits=it[:4], fees=it[4:], script=script) for it, script in ((sides[:7], b"A"), (sides[7:], b"B"))]
        if (not 1 <= satoshis <= 2100000000000000 or push > 1000 * satoshis
                or any(it["limits"][1] > 483 or not it["fees"][1] <= it["fees"][0] <= it["fees"][2] for it in sides)):
            return "unfit"
        a, b = Link("A", "funder", Keys(seed, 1, 2), sides[0]), Link("B", "fundee", Keys(seed, 2, 1), sides[1])
        a.other, b.other, a.report, b.report = b, a, [], []
        self.ends = {"A": a, "B": b}
        a.spec = dict(a.common(), chain_hash=CHAIN, temporary_id=TEMPORARY, funding_satoshis=satoshis, push_msat=push, feerate_per_kw=253,
                      channel_flags=1, records=[(0, bytes([0, 20])), (1, bytes([16]) * types)] if types else [])
        if word == "made":
            return "made"
        b.connect()
        opened = self.answer(a, a.connect())
        if word == "new":
            return opened
        self.passed(b)
        for it in (a, b):
            self.answer(it, lambda: it.obey("confirm", {}))
        return self.passed(b)

    def give(self, it, data):
        try:
            typ, m = decode(data)
        except Fault as fault:
            return f"fault {fault.args[0]}"
        return "ignored" if m is None else self.answer(it, lambda: it.handle(typ, m), replies=typ != 17)

    def answer(self, it, act, replies=False):
        it.sent, it.told = [], []
        try:
            act()
            words = "ok"
        except Refused as refused:
            words = " ".join(["refused", *map(str, refused.numbers)])
            number = refused.numbers[0]
            if replies and 20 <= number <= 36:
                it.put(encode(1 if number == 36 else 17, channel_id=ID, data=b"refused %d" % number))
        return " ".join([words] + [f"sends {data.hex()}" for data in it.sent] + it.told)

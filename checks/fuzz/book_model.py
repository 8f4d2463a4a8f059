"""A plain model of a node's book of forwarded payments, written from the rules of docs/PROTOCOL.md and the definitions of
ln_book_tables and ln_book. checks/fuzz/model.py has one for each node; `Book.call(line)` gives what
crates/ln_book_calls has to print for a line.

A channel is any name. A mark, a command, a way and an outcome are tuples that begin with their kind:

- marks: none; forward, the channel, amount, expiry; fail, the reason; malformed, the code; fulfil, the preimage; held,
  the event
- commands: decide and resume, the event, the mark; add, the amount, payment hash, expiry, onion, origin; fulfil, the
  id, the preimage; fail, the id, the reason; malformed, the id, the hash, the code; forget, the own id
- ways of the outgoing HTLC: nowhere; refused; offered, the channel, the own id; over, these and the outcome
- outcomes: fulfilled, the preimage; failed, the reason; malformed, the hash, the code
- verdicts of hooks: the code of a failure, HOLD, or anything else to go on"""
from collections import namedtuple
from hashlib import sha256


def bytes_of(number):
    return bytes([number % 256]) * 32


def front(data):
    return int.from_bytes(data[:8], "big")


def total(data):
    return front(sha256(data).digest())


def big(size, number):
    return number.to_bytes(size, "big")


def truncated(number):
    return big((number.bit_length() + 7) // 8, number)


# ---- onions whose payloads stand open

def packet(payloads, digest):
    room = payloads + bytes(1300 - len(payloads))
    return bytes([0, 2]) + bytes(32) + room + sha256(room + digest).digest()


REST = bytes([3, 2, 1, 5])  # the payload of the hop behind this one, with its length
FAULTS = {1: 0xC004, 2: 0xC006, 3: 0xC005}  # of the version, the key, the HMAC


class Hop:
    """What a line's numbers say of an onion: its fault, whether it is the final hop's, and the payload's records."""

    def __init__(self, n, digest):
        self.fault, self.final = n.get("fault", 0), n.get("final", 0)
        self.amount, self.expiry, self.short_id = map(n.get, ("forward_amount", "forward_expiry", "short_id"))
        self.payment = (n["secret"] % 256, n.get("total", 0)) if "secret" in n else None
        self.bad = (self.expiry or 0) >= 2**32 or self.fault == 4
        self.empty = self.fault != 4 and {self.amount, self.expiry, self.short_id, self.payment} == {None}
        self.digest = digest
        payload = self.records()
        self.packet = bytearray(packet(bytes([len(payload)]) + payload + (b"" if self.final else REST), digest))
        for fault, place, change in ((1, 0, 1), (2, 1, 1), (3, 1365, 1)):
            if self.fault == fault:
                self.packet[place] ^= change

    def records(self):
        data = b""
        for typ, value in ((2, self.amount), (4, self.expiry)):
            if value is not None:
                data += bytes([typ, len(truncated(value))]) + truncated(value)
        if self.short_id is not None:
            data += bytes([6, 8]) + big(8, self.short_id)
        if self.payment is not None:
            secret, amounts = self.payment
            data += bytes([8, 32 + len(truncated(amounts))]) + bytes([secret]) * 32 + truncated(amounts)
        return data + (b"\xff" if self.fault == 4 else b"")

    def next_packet(self):
        """The onion that goes on; none where this one can't be opened or there is no hop behind."""
        return None if self.fault in FAULTS or self.final or self.empty else packet(REST, self.digest)

    def sha(self):
        return sha256(self.packet).digest()


# ---- failures

def failure(code, amount=0, expiry=0, height=0, typ=0):
    data = {0x1007: bytes(2), 0x400A: b"", 0x100B: big(8, amount) + bytes(2), 0x100C: big(8, amount) + bytes(2),
            0x100D: big(4, expiry) + bytes(2), 0x100E: bytes(2), 0x400F: big(8, amount) + big(4, height),
            0x12: big(4, expiry), 0x13: big(8, amount), 0x15: b"", 0x4016: bytes([typ, 0, 0])}[code]
    return big(2, code) + data


CODES = (0x1007, 0x400A, 0x100B, 0x100C, 0x100D, 0x100E, 0x400F, 0x12, 0x13, 0x15, 0x4016)
HOLD = "hold"
HOLDS = 5  # what stands for it in a line


class Htlc:
    """A payment that came in by a channel: how it was decided, where it goes, and whether it was removed."""

    def __init__(self, channel, event, offer, mark):
        self.channel, self.id, self.event, self.offer, self.mark = channel, offer["id"], event, offer, mark
        self.decided, self.way, self.back = False, ("nowhere",), "open"

    def key(self):
        return self.channel, self.id

    def is_held(self):
        return self.mark[0] == "held"

    def is_finished(self):
        """Nothing is left to be done: it isn't held either, as it may be resumed."""
        return self.back == "settled" and self.way[0] in ("nowhere", "refused") and not self.is_held()


# what a book reads off a channel's record: the own adds that forward others and what became of such adds, each as the
# key of the HTLC that it is for and its way; and the peer's HTLCs that were decided
Reading = namedtuple("Reading", "offered results decided")


def by_outcome(id, outcome):
    """How an outcome of the outgoing HTLC is passed back."""
    kind, *values = outcome
    if kind == "fulfilled":
        return "fulfil", id, values[0]
    return "fail", id, values[0] if kind == "failed" else big(2, values[1]) + values[0]


class Book:
    def __init__(self):
        self.routes, self.used, self.height, self.expected = {}, {}, 0, {}
        self.queue, self.htlcs, self.out = [], [], {}

    # ---- what is done about an event

    def mark(self, event, offer, verdict):
        """By the hooks' verdict, else by the onion. What is held waits by the number of its event."""
        if offer is None:
            return ("none",)
        hop, height = offer["hop"], self.height
        if verdict == HOLD:
            return "held", event
        if verdict in CODES:
            return "fail", failure(verdict, offer["amount"], offer["expiry"], height)
        if hop.fault in FAULTS:
            return "malformed", FAULTS[hop.fault]
        if hop.bad or hop.empty:
            return "fail", failure(0x4016)
        fault = self.final_fault(offer, hop) if hop.final else self.forward_fault(offer, hop)
        if fault is not None:
            return "fail", fault
        if hop.final:
            return "fulfil", self.expected[offer["hash"]][0]
        return "forward", self.routes[hop.short_id][0], hop.amount, hop.expiry

    def forward_fault(self, offer, hop):
        for typ, value in ((2, hop.amount), (4, hop.expiry), (6, hop.short_id)):
            if value is None:
                return failure(0x4016, typ=typ)
        if hop.short_id not in self.routes:
            return failure(0x400A)
        channel, base, proportional, delta, minimum = self.routes[hop.short_id]
        if not self.used.get(channel, False):
            return failure(0x1007)
        if hop.amount == 0 or hop.amount < minimum:
            return failure(0x100B, amount=hop.amount)
        if offer["amount"] < hop.amount + base + hop.amount * proportional // 1000000:
            return failure(0x100C, amount=offer["amount"])
        if offer["expiry"] < hop.expiry + delta:
            return failure(0x100D, expiry=hop.expiry)
        if hop.expiry <= self.height + 3:
            return failure(0x100E)
        return failure(0x15) if hop.expiry > self.height + 2016 else None

    def final_fault(self, offer, hop):
        amount, expiry, height = offer["amount"], offer["expiry"], self.height
        for typ, value in ((2, hop.amount), (4, hop.expiry)):
            if value is None:
                return failure(0x4016, typ=typ)
        if amount < hop.amount:
            return failure(0x13, amount=amount)
        if expiry < hop.expiry:
            return failure(0x12, expiry=expiry)
        _, secret, asked = self.expected.get(offer["hash"], (None, None, 0))
        pays = hop.payment == (secret, hop.amount) and asked <= amount <= 2 * asked and expiry > height + 3
        return None if pays else failure(0x400F, amount=amount, height=height)

    def decide(self, channel, event, offer, verdict):
        """What is done about an event of a channel, which is queued as a command; an offer where it is a peer's add."""
        mark = self.mark(event, offer, verdict)
        self.unqueue(channel, "decide", event)
        self.queue.append((channel, "decide", event, mark))
        if offer is not None:
            made = Htlc(channel, event, offer, mark)
            if not any(h.decided and h.key() == made.key() for h in self.htlcs):
                self.htlcs = [h for h in self.htlcs if h.key() != made.key()] + [made]
        return mark

    def queued(self, channel, what, event):
        """How a channel is to decide or resume its event; None where nothing of the kind is queued."""
        return next((mark for *about, mark in self.queue if about == [channel, what, event]), None)

    def unqueue(self, channel, what, event):
        self.queue = [q for q in self.queue if q[:3] != (channel, what, event)]

    def held(self):
        """The HTLCs that are held and aren't being resumed, in order of deciding."""
        return [h for h in self.htlcs if h.decided and h.is_held() and not self.queued(h.channel, "resume", h.mark[1])]

    def held_by(self, channel, event):
        """The one that a channel holds by this event."""
        return next((h for h in self.held() if (h.channel, h.mark[1]) == (channel, event)), None)

    def resume(self, channel, event, verdict):
        """What a channel holds by this event is decided by the verdict and by what is set now, which is queued as a
        command. None where nothing is held so, or where it is to be held again."""
        h = self.held_by(channel, event)
        if h is None or verdict == HOLD:
            return None
        mark = self.mark(event, h.offer, verdict)
        self.queue.append((channel, "resume", event, mark))
        return mark

    # ---- commands

    def removal(self, h):
        kind = h.mark[0]
        if kind == "malformed":
            return kind, h.id, h.offer["hop"].sha(), h.mark[1]
        if kind in ("fail", "fulfil"):
            return kind, h.id, h.mark[1]
        if kind == "forward" and h.way[0] == "refused":
            return "fail", h.id, failure(0x1007)
        return by_outcome(h.id, h.way[3]) if kind == "forward" and h.way[0] == "over" else None

    def due(self, h, channel):
        """What an HTLC is due in a channel: what it does, to which HTLC, and the command."""
        if not h.decided:
            return None
        if h.back == "settled":
            return ("forget", h.key(), ("forget", h.way[2])) if h.way[0] == "over" and h.way[1] == channel else None
        if h.way[0] == "nowhere" and h.mark[0] == "forward" and h.mark[1] == channel:
            onion = h.offer["hop"].next_packet()
            if onion is None:
                return None
            _, _, amount, expiry = h.mark
            return "add", h.key(), ("add", amount, h.offer["hash"], expiry, onion, h.key())
        told = self.removal(h) if h.back == "open" and h.channel == channel else None
        return ("remove", h.key(), told) if told else None

    def first(self, channel):
        """The first command that a channel can take, with what it does and to which HTLC or event; None without one."""
        if channel in self.out:
            return None
        for at, what, event, mark in self.queue:
            if at == channel:
                return what, event, (what, event, mark)
        return next(filter(None, (self.due(h, channel) for h in self.htlcs)), None)

    def take(self, channel):
        found = self.first(channel)
        if found is None:
            return None
        what, about, command = found
        self.out[channel] = what, about, False
        return command

    def drop_htlcs(self, key):
        self.htlcs = [h for h in self.htlcs if h.key() != key]

    def named(self, key):
        return [h for h in self.htlcs if h.key() == key][:1]

    def taken(self, channel, what, about, own_id):
        if what == "decide":
            self.unqueue(channel, what, about)
            for h in [h for h in self.htlcs if (h.channel, h.event) == (channel, about)][:1]:
                h.decided = True
        elif what == "resume":
            mark = self.queued(channel, what, about)
            self.unqueue(channel, what, about)
            self.held_by(channel, about).mark = mark
            self.htlcs = [h for h in self.htlcs if not h.is_finished()]
        elif what == "add":
            for h in self.named(about):
                h.way = "offered", channel, own_id
        elif what == "remove":
            for h in self.named(about):
                h.back = "sent"
        else:
            self.drop_htlcs(about)

    def refused(self, channel, what, about, number):
        if what == "decide":
            self.unqueue(channel, what, about)
            self.htlcs = [h for h in self.htlcs if h.decided or (h.channel, h.event) != (channel, about)]
        elif what == "resume":
            self.unqueue(channel, what, about)
        elif what == "add" and number < 47:
            for h in self.named(about):
                h.way = ("refused",)
        elif what == "remove":
            for h in self.named(about):
                h.back = "gone"
        else:
            self.drop_htlcs(about)

    def answered(self, channel, is_refused, number):
        """The command that is out was taken, an add with this own id; or it was refused by this number."""
        what, about, unsure = self.out.get(channel, (None, None, True))
        if unsure:
            return
        if is_refused and number in (60, 61):
            self.out[channel] = what, about, True
            return
        del self.out[channel]
        if not is_refused:
            self.taken(channel, what, about, number)
        elif number not in (47, 62):
            self.refused(channel, what, about, number)

    # ---- what is committed, and what is lost

    def settled(self, channel, is_own, id, outcome):
        """The removal of an own or of a peer's HTLC is irrevocably committed."""
        if is_own:
            for h in [h for h in self.htlcs if h.way[1:3] == (channel, id)][:1]:
                h.way = "over", channel, id, outcome
            return
        for h in self.named((channel, id)):
            h.back = "settled"
        self.htlcs = [h for h in self.htlcs if h.key() != (channel, id) or not h.is_finished()]

    def dropped(self, channel, next_id, is_decided, removals):
        """A channel lost its connection: its next own id, whether it has decided an event by a mark, and which of the
        peer's HTLCs it still removes."""
        what, about, _ = self.out.pop(channel, (None, None, None))
        mark = self.queued(channel, what, about)
        if mark and is_decided(about, mark):
            self.taken(channel, what, about, 0)
        elif what == "remove":
            self.taken(channel, what, about, 0)
        for h in self.htlcs:
            if h.way[0] == "offered" and h.way[1] == channel and h.way[2] >= next_id:
                h.way = ("nowhere",)
            if h.channel == channel and h.back == "sent" and h.id not in removals:
                h.back = "open"

    def rebuild(self, readings):
        """Begins anew with what the records of the node's channels say, one channel after the other; settings stay."""
        results = [it for reading in readings for it in reading.results]
        ways = dict(reversed(results + [it for reading in readings for it in reading.offered]))  # the first of each
        decided = [h for reading in readings for h in reading.decided]
        for h in decided:
            h.way = ways.get(h.key(), ("nowhere",))
            if h.mark[0] in ("forward", "held") and h.way[0] == "nowhere" and h.back != "open":
                h.way = ("refused",)  # it is removed already, so it isn't offered again
        keys = {h.key() for h in decided}
        self.queue, self.out = [], {}
        self.htlcs = [h for h in decided if not h.is_finished()]
        self.htlcs += [left_over(key, way) for key, way in results if key not in keys]

    # ---- a line

    def call(self, line):
        kind, *words = line.split(" ")
        n = dict(word.split("=") for word in words)
        removals = [int(it) for it in n.pop("removals", "").split(",") if it]
        n = {name: int(it) for name, it in n.items()}
        channel = n.get("channel")
        if kind == "route":
            self.routes[n["short_id"]] = channel, n["base"], n["proportional"], n["delta"], n["minimum"]
        elif kind == "use":
            self.used[channel] = n["takes"] == 1
        elif kind == "usable":
            return "usable" if self.used.get(channel, False) else "not usable"
        elif kind == "height":
            self.height = n["blocks"]
        elif kind == "expect":
            preimage = bytes_of(n["preimage"])
            self.expected[sha256(preimage).digest()] = preimage, n["secret"] % 256, n["amount"]
        elif kind == "decide":
            digest = sha256(bytes_of(n["preimage"])).digest()
            offer = {"id": n["id"], "amount": n["amount"], "hash": digest, "expiry": n["expiry"], "hop": Hop(n, digest)}
            return show(self.decide(channel, n["event"], None if n.get("own") == 1 else offer, verdict_of(n)))
        elif kind == "resume":
            mark = self.resume(channel, n["event"], verdict_of(n))
            return show(mark) if mark else "refused 40"
        elif kind == "held":
            return "held" + "".join(show_held(h) for h in self.held())
        elif kind == "settled":
            how, number = next((how, n[how]) for how in ("fulfilled", "failed", "malformed") if how in n)
            self.settled(channel, n["own"] == 1, n["id"], (how, bytes_of(number), number % 2**16))
        elif kind == "take":
            command = self.take(channel)
            return show_command(command) if command else "nothing"
        elif kind == "answered":
            self.answered(channel, "refused" in n, n["refused"] if "refused" in n else n["id"])
        elif kind == "dropped":
            self.dropped(channel, n["next_id"], lambda event, _: event < n["decided"], removals)
        else:
            self.rebuild([])
        return "done"


def left_over(key, way):
    """What is left of a result whose decision has gone: it is to be forgotten."""
    h = Htlc(key[0], None, {"id": key[1]}, ("fulfil", bytes(32)))
    h.decided, h.way, h.back = True, way, "settled"
    return h


def verdict_of(n):
    return HOLD if n.get("verdict") == HOLDS else n.get("verdict", 0)


def show(mark):
    kind, rest = mark[0], mark[1:]
    values = [total(it) if kind == "fail" else front(it) if kind == "fulfil" else it for it in rest]
    return " ".join(map(str, [kind, *values]))


def show_held(h):
    return f" {h.channel} {h.mark[1]} {h.id} {h.offer['amount']} {front(h.offer['hash'])} {h.offer['expiry']},"


def show_command(command):
    kind, first, *rest = command
    if kind in ("decide", "resume"):
        return f"{kind} {first} {show(*rest)}"
    if kind == "add":
        digest, expiry, onion, (channel, id) = rest
        return f"add {first} {front(digest)} {expiry} {total(onion)} {channel} {id}"
    values = [total(it) if kind == "fail" else front(it) if isinstance(it, bytes) else it for it in rest]
    return " ".join(map(str, [kind, first, *values]))

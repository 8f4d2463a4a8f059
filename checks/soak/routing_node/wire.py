"""What the node's process and its peers share: turns of frames over a socket, keys that are digests, payments."""
import hashlib, random, struct
from array import array
from ctypes import byref, c_size_t, create_string_buffer, string_at

from lnlink import Config, OpenSpec, Settings, channel_id, short_channel_id
from lnlink.refusals import check

SHORT = 82


class Wrong(Exception):
    """Something is amiss."""


def refused(who, channel, message, number):
    """What is amiss where an end refuses a message of the other one."""
    kind = int.from_bytes(message[:2], "big")
    return Wrong(f"{who} refuses by {number & 255} a message {kind} of channel {channel}")


# ---- calls whose answers stay bytes

room, count = create_string_buffer(1 << 20), c_size_t()
counted = byref(count)


def told(call, *arguments):
    """What a call of the library tells."""
    global room
    answer = call(*arguments, room, len(room), counted)
    if answer == SHORT:
        room = create_string_buffer(2 * count.value)
        answer = call(*arguments, room, len(room), counted)
    if answer:
        check(answer)
    return string_at(room, count.value)


# ---- turns

# A frame is a length, one of these, a channel's number and bytes. END is the last of a turn, AGAIN that of a life.
MESSAGE, OPEN, CONFIRM, CONNECT, CUT, BEGIN, FEE, DIE, REFUSE, REPORT, FAULT, AGAIN, END = range(13)
HEAD = struct.Struct(">IBI")


class Frames(bytearray):
    """Those of a turn."""

    def put(self, kind, channel=0, data=b""):
        self += HEAD.pack(len(data), kind, channel)
        self += data


class Turns:
    """Turns of the other side of a socket."""

    def __init__(self, socket):
        self.socket, self.got = socket, bytearray()

    def next(self):
        """The frames of the next turn: without an END where the other side has ended in it."""
        frames, at = [], 0
        while not frames or frames[-1][0] != END:
            if len(self.got) - at >= HEAD.size:
                size, kind, channel = HEAD.unpack_from(self.got, at)
                begin = at + HEAD.size
                if len(self.got) - begin >= size:
                    at = begin + size
                    frames.append((kind, channel, bytes(self.got[begin:at])))
                    continue
            try:
                came = self.socket.recv(1 << 20)
            except ConnectionResetError:  # it has ended before it has read all
                came = b""
            if not came:
                return frames
            self.got += came
        del self.got[:at]
        return frames


# ---- keys


def sha256(data):
    return hashlib.sha256(data).digest()


class DigestKeys:
    """The keys of one end of a channel. A signature is a digest of what it is over: it fits where both ends mean the
    same. They take what is asked, and what is blank, as the bytes of include/lnlink.h."""

    def __init__(self, name):
        self.seed = sha256(name)

    def secret(self, number):
        return sha256(self.seed + number.to_bytes(8, "big"))

    def point(self, number):
        return b"\2" + sha256(self.secret(number))

    def signatures(self, owner, number, point, view):
        """Over a commitment of this owner, and over its HTLCs."""
        whole = hashlib.sha512(bytes([owner]) + number + point + view).digest()
        htlcs = int.from_bytes(view[20:28], "big")
        return whole + b"".join(hashlib.sha512(whole + it.to_bytes(2, "big")).digest() for it in range(htlcs))

    def fill(self, blank):
        if blank[0] == 1:
            return self.signatures(1 - blank[1], blank[2:10], blank[10:43], blank[43:])
        if blank[0] == 2:
            secret, point = struct.unpack(">QQ", blank[1:17])
            return self.secret(secret) + self.point(point)
        if blank[0] == 3:
            return self.point(int.from_bytes(blank[1:9], "big"))
        raise ValueError(f"a blank {blank[0]}")

    def answer(self, question, message):
        if not question:
            return b""
        if question[0] == 1:
            return self.verify(question[1], question[2:10], question[10:], message)
        if question[0] == 2:
            return bytes([b"\2" + sha256(message[34:66]) == question[9:42]])
        if question[0] == 4:
            return self.secret(int.from_bytes(question[1:9], "big"))
        if question[0] == 5:
            return b"\1"
        if question[0] == 6:
            return self.verify(1, bytes(8), question[33:], message)
        raise ValueError(f"a question {question[0]}")

    def verify(self, role, number, view, message):
        point = self.point(int.from_bytes(number, "big"))
        return bytes([self.signatures(role, number, point, view) == signatures_in(message)])


def signatures_in(message):
    """Of funding_created, of funding_signed and commitment_signed."""
    if message[1] == 34:
        return message[68:132]
    return message[34:98] + message[100:]


# ---- channels

HEIGHT, DELTA = 100, 40
FUNDING_SATOSHIS, RESERVE_SATOSHIS = 1_000_000, 10_000
SETTINGS = Settings(1000, 100, DELTA, sha256(b"mark"))
CHAIN = bytes(32)


def is_funder(channel):
    """Whether the peer has opened it, and not the node."""
    return channel % 2 == 0


def keys_of(side, channel):
    return DigestKeys(b"%s %d" % (side, channel))


def node_msat_of(channel):
    """What the node has at first: in one channel of five it can pay little."""
    return 1000 * (RESERVE_SATOSHIS + 1000 if channel % 5 == 4 else FUNDING_SATOSHIS // 2)


def config_of(keys, channel):
    """Some channels take few HTLCs."""
    points = [keys.point((1 << 20) + it) for it in range(5)]
    limits = 1000, 4 + channel % 27, 500_000_000, RESERVE_SATOSHIS
    return Config(*limits, CHAIN, 546, 144, 3, *points, 300, 200, 400, b"\0\x14" + bytes(20))


def txid_of(channel):
    return sha256(b"funding %d" % channel)


def spec_of(keys, channel):
    node_msat, temporary = node_msat_of(channel), sha256(b"temporary %d" % channel)
    pushed = node_msat if is_funder(channel) else 1000 * FUNDING_SATOSHIS - node_msat
    return OpenSpec(config_of(keys, channel), FUNDING_SATOSHIS, pushed, 253, 0, temporary, txid_of(channel), 1)


def id_of(channel):
    return channel_id(txid_of(channel), 1)


def short_id_of(channel):
    return short_channel_id(110, channel, 1)


# ---- payments

# What becomes of a payment, where both of its channels are there: its payee fulfils it, fails it, or can't read its
# onion; the node takes it for itself, can't read its onion, or knows no channel for it; its host fails it, or holds it
# for some turns.
PAID, REFUSED, UNREADABLE, TAKEN, BAD_ONION, NO_CHANNEL, STOPPED, HELD = range(8)
WEIGHTS = [76, 6, 3, 3, 2, 2, 3, 5]
CODES = 0x1007, 0x400A, 0x400F, 0xC005
BUSY_CODE, NO_CHANNEL_CODE, STOP_CODE, BAD_HMAC_CODE = (it.to_bytes(2, "big") for it in CODES)


def tlv(kind, value):
    return bytes([kind, len(value)]) + value


def truncated(number):
    return number.to_bytes((number.bit_length() + 7) // 8, "big")


def preimage_of(seed, number):
    return sha256(b"payment %d of %d" % (number, seed))


def payment_secret_of(preimage):
    return sha256(preimage + b"secret")


class Payments:
    """All payments, by their numbers: between which channels, what their payees get, and what becomes of them. Of four
    one is between the first channels, which so have several at once; some have the payment hash of the one before."""

    def __init__(self, seed, channels, count):
        chance = random.Random(f"payments {seed}")
        self.seed, self.count, few = seed, count, min(channels, 12 + channels // 100)
        self.source, self.target, self.amount = array("L"), array("L"), array("L")
        self.kind = bytes(chance.choices(range(len(WEIGHTS)), WEIGHTS, k=count))
        self.is_twin = bytearray(count)
        for number in range(count):
            among = few if chance.random() < 0.25 else channels
            source = chance.randrange(among)
            self.source.append(source)
            self.target.append((source + chance.randrange(1, among)) % among)
            self.amount.append(chance.randrange(50_000, 150_000))
            if number % 2 and chance.random() < 0.1:
                self.is_twin[number] = TAKEN not in self.kind[number - 1 : number + 1]

    def preimage(self, number):
        return preimage_of(self.seed, number - self.is_twin[number])

    def paid(self, number):
        """What its payer pays: the node's fee too."""
        amount = self.amount[number]
        return amount + SETTINGS.fee_base_msat + amount * SETTINGS.fee_proportional_millionths // 1_000_000

    def payload(self, number):
        """The node's (BOLT 4, "`payload` Format")."""
        amount = truncated(self.amount[number])
        hop = tlv(2, amount) + tlv(4, truncated(HEIGHT + 100))
        if self.kind[number] == TAKEN:
            return hop + tlv(8, payment_secret_of(self.preimage(number)) + amount)
        return hop + tlv(6, bytes(8) if self.kind[number] == NO_CHANNEL else short_id_of(self.target[number]))

    def onion(self, number):
        """What becomes of it, the node's payload after its length, and the payee's part: the number."""
        payload = self.payload(number)
        head = bytes([self.kind[number]]) + len(payload).to_bytes(2, "big") + payload
        return (head + number.to_bytes(8, "big")).ljust(1366, b"\0")

    def add(self, number):
        """The command by which its payer offers it."""
        expiry = (HEIGHT + 100 + DELTA).to_bytes(4, "big")
        head = b"\1" + self.paid(number).to_bytes(8, "big") + sha256(self.preimage(number)) + expiry
        return head + self.onion(number) + b"\0"


def opened(onion):
    """The node's payload, after its length, and the number."""
    end = 3 + int.from_bytes(onion[1:3], "big")
    return onion[1:end], onion[end : end + 8]

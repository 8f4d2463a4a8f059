"""The peers of the node: each has the other end of one of its channels, pays by it and is paid."""
from array import array
from collections import deque
from ctypes import byref

from lnlink import Confirm, Fail, Malformed, Summary
from lnlink.library import Handle, library
from lnlink.refusals import check

from wire import (BAD_HMAC_CODE, BAD_ONION, BUSY_CODE, HELD, NO_CHANNEL, NO_CHANNEL_CODE, PAID, REFUSED, STOP_CODE,
                  STOPPED, TAKEN, UNREADABLE, Wrong, config_of, is_funder, keys_of, refused, sha256, short_id_of,
                  spec_of, told)

# By these a channel can't do what it is told yet.
NOT_READY, OUTSTANDING, NOTHING_NEW, PEER_LIMIT, DISCONNECTED, NOT_COMMITTED = 40, 41, 42, 44, 47, 48
# How many HTLCs of its own a peer has at once.
MOST = 10
SIGN = b"\6"
# After these of the node an end that is open takes payments.
CHANNEL_READY, REESTABLISH = b"\0\x24", b"\0\x88"
ADD, COMMITMENT_SIGNED = b"\0\x80", b"\0\x84"


class Results:
    """What has become of payments: each once."""

    def __init__(self, payments):
        self.payments = payments
        self.arrived = array("B", bytes(payments.count))  # how often its HTLC was committed at its payee
        self.ends = [""] * payments.count
        self.signed = {}  # by payments, the HTLC that the node has signed for its payee: its channel, and its id
        self.over = 0

    def sign(self, number, channel, htlc):
        """The node has signed an HTLC for a payee."""
        before = self.signed.setdefault(number, (channel, htlc))
        if before != (channel, htlc):
            raise Wrong(f"payment {number} is signed twice: as HTLC {before[1]} of channel {before[0]}, then as {htlc}")

    def arrive(self, number, channel, amount, payment_hash):
        """An HTLC is committed at its payee."""
        payments = self.payments
        kind = payments.kind[number]
        wanted = payments.target[number], payments.amount[number], sha256(payments.preimage(number))
        if (channel, amount, payment_hash) != wanted or kind not in (PAID, HELD, REFUSED, UNREADABLE):
            raise Wrong(f"payment {number} of kind {kind} came to channel {channel} with {amount} msat")
        if self.arrived[number] or self.ends[number]:
            so_far = self.ends[number] or "under way"
            raise Wrong(f"payment {number}, which is {so_far}, was offered twice to channel {channel}, or too late")
        self.arrived[number] = 1

    def settle(self, number, how):
        """Its payer's HTLC is over."""
        if self.ends[number]:
            raise Wrong(f"payment {number} is settled twice: {self.ends[number]}, then {how[:60]}")
        self.ends[number] = self.end_of(number, how)
        self.over += 1

    def end_of(self, number, how):
        kind, has_come = self.payments.kind[number], bool(self.arrived[number])
        if how == b"\0" + self.payments.preimage(number) and (kind, has_come) in FULFILLED:
            return "fulfilled"
        reason = how[3:] if how[0] == 1 else b"malformed " + how[33:35]
        if reason.startswith(b"own " + BUSY_CODE) and not has_come:
            return "busy"
        beginning = b"passed on " + refusal_of(number) if kind == REFUSED else FAILED.get(kind)
        if beginning and reason.startswith(beginning) and has_come == (kind in (REFUSED, UNREADABLE)):
            return "failed"
        raise Wrong(f"payment {number} of kind {kind}, which has come: {has_come}, ends by {how[:60]}")


# The kinds that are fulfilled, and whether these come to their payees; how others fail.
FULFILLED = (PAID, True), (HELD, True), (TAKEN, False)
FAILED = {
    UNREADABLE: b"own " + BAD_HMAC_CODE,
    BAD_ONION: b"malformed " + BAD_HMAC_CODE,
    NO_CHANNEL: b"own " + NO_CHANNEL_CODE,
    STOPPED: b"own " + STOP_CODE,
}


def refusal_of(number):
    return b"no payment %d." % number


class Peer:
    """The other end of a channel. It is never started again, so that it is told of each event once."""

    def __init__(self, channel, results):
        self.channel, self.results, self.payments = channel, results, results.payments
        self.keys, self.handle = keys_of(b"peer", channel), Handle()
        self.at = byref(self.handle)
        self.is_connected = self.is_up = False
        self.queue = deque()  # payments to offer
        self.feerate = 0  # that it is to set, in satoshi for 1000 units of weight
        self.offered, self.next_id = {}, 0  # its own HTLCs, by their ids
        self.due, self.given = {}, {}  # HTLCs of the node's that it has to remove, and has removed
        self.unsigned = []  # payments that the node has offered, and the ids of their HTLCs
        if is_funder(channel):
            call, data = library.lnl_open, spec_of(self.keys, channel).to_bytes()
        else:
            call, data = library.lnl_accept, config_of(self.keys, channel).to_bytes()
        check(call(self.at, data, len(data), self.keys.point(0), 33))

    def look(self):
        return Summary.from_bytes(told(library.lnl_look, self.at))

    def command(self, command):
        return library.lnl_command(self.at, command, len(command))

    def confirm(self):
        check(self.command(Confirm(short_id_of(self.channel)).to_bytes()))
        return self.hand_out()

    # ---- its connection. What it answers is to be sent to the node.

    def connect(self):
        self.is_connected = True
        check(library.lnl_connect(self.at))
        return self.hand_out()

    def disconnect(self):
        """What wasn't signed is lost, and done again later."""
        self.is_connected = self.is_up = False
        self.unsigned = []
        check(library.lnl_disconnect(self.at))
        self.hand_out()
        if not self.offered and not self.given:
            return
        look = self.look()
        for it in sorted((it for it in self.offered if it >= look.next_htlc_id), reverse=True):
            self.queue.appendleft(self.offered.pop(it))
        self.next_id = look.next_htlc_id
        for it in [it for it in self.given if it not in look.removed_htlcs]:
            self.due[it] = self.given.pop(it)

    def receive(self, message):
        question = told(library.lnl_question, self.at, message, len(message))
        answer = self.keys.answer(question, message)
        number = library.lnl_message(self.at, message, len(message), answer, len(answer))
        if number:
            raise refused("the peer", self.channel, message, number)
        if message[:2] in (CHANNEL_READY, REESTABLISH):
            self.is_up = True
        elif message[:2] == ADD:
            self.unsigned.append((int.from_bytes(message[86:94], "big"), int.from_bytes(message[34:42], "big")))
        elif message[:2] == COMMITMENT_SIGNED:
            for number, htlc in self.unsigned:
                self.results.sign(number, self.channel, htlc)
            self.unsigned = []
        return self.hand_out()

    def hand_out(self):
        """Deals with its line: the messages in it."""
        sent = []
        while item := told(library.lnl_next, self.at):
            filling = self.keys.fill(item[1:]) if item[0] == 2 else b""
            check(library.lnl_done(self.at, filling, len(filling)))
            if item[0] == 3:
                sent.append(item[1:])
            elif item[0] == 4:
                self.act(item)
                check(self.command(b"\x08" + item[1:9] + b"\0"))
        return sent

    def act(self, item):
        """On an event of the node's HTLC that was added, or of one that was settled."""
        own, number = item[10], int.from_bytes(item[11:19], "big")
        if item[9] == 0 and not own:
            payment = int.from_bytes(item[63:71], "big")
            amount = int.from_bytes(item[19:27], "big")
            self.results.arrive(payment, self.channel, amount, item[27:59])
            self.due[number] = payment
        elif item[9] == 1 and own:
            self.results.settle(self.offered.pop(number), item[19:])
        elif item[9] == 1:
            del self.given[number]

    # ---- its wallet

    def work(self):
        """Gives the commands that are due, and signs what is new: the messages that this makes."""
        sent = []
        if not self.is_up:
            return sent
        while self.due and self.may(self.removal(*next(iter(self.due.items()))), sent):
            number = next(iter(self.due))
            self.given[number] = self.due.pop(number)
        while self.queue and len(self.offered) < MOST and self.may(self.payments.add(self.queue[0]), sent):
            self.offered[self.next_id] = self.queue.popleft()
            self.next_id += 1
        if self.feerate:
            self.may(b"\5" + self.feerate.to_bytes(4, "big"), sent)
            self.feerate = 0
        self.may(SIGN, sent)
        return sent

    def may(self, command, sent):
        """Gives a command. Whether it can be taken now."""
        answer = self.command(command)
        if answer & 255 in (NOT_READY, OUTSTANDING, NOTHING_NEW, PEER_LIMIT, DISCONNECTED, NOT_COMMITTED):
            return False
        check(answer)
        sent += self.hand_out()
        return True

    def removal(self, number, payment):
        kind = self.payments.kind[payment]
        if kind == REFUSED:
            return Fail(number, refusal_of(payment)).to_bytes()
        if kind == UNREADABLE:
            return Malformed(number, bytes(32), int.from_bytes(BAD_HMAC_CODE, "big")).to_bytes()
        return b"\2" + number.to_bytes(8, "big") + self.payments.preimage(payment)

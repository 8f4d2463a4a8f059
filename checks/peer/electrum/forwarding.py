"""Forwarding: one Electrum pays another over a node of ours, with real keys and onions. Each case by name, with our
side as funder and as fundee of both channels."""
import electrum_side as el
import lnlink
from cases import case
from cuts import CUTS
from electrum.lnchannel import ChannelState
from electrum.lnonion import (InvalidOnionMac, InvalidOnionPubkey, OnionPacket, OnionRoutingFailure,
                              UnsupportedOnionPacketVersion, construct_onion_error, decode_onion_error,
                              generate_cipher_stream, get_bolt04_onion_key, process_onion_packet)
from electrum.lnutil import ShortChannelID, get_ecdh
from electrum.util import xor_bytes
from host import Host
from keys import FUNDEE
from session import Session

BASE_MSAT, MILLIONTHS, DELTA = 1000, 100, 40
AMOUNT = 20_000_000


class NodeLink:
    """A channel of a node, as a host drives a link."""

    def __init__(self, node, channel):
        self.node = node
        self.channel = channel

    def __getattr__(self, name):
        call = getattr(self.node, name)
        return lambda *given: call(self.channel, *given)

    def close(self):
        """The node is closed by itself."""


class Side(Host):
    """The host of one channel of a node: the node hands out what is to be done."""

    def __init__(self, middle, *given):
        super().__init__(*given)
        self.middle = middle

    def begin(self, what):
        opens = isinstance(what, lnlink.OpenSpec)
        if opens:
            self.disk.funding_sat = self.keys.funding_sat = what.funding_satoshis
        call = self.middle.node.open if opens else self.middle.node.accept
        self.link = NodeLink(self.middle.node, call(what, self.keys.point(0)))
        self.middle.sides.append(self)

    def sign(self):
        self.middle.node.sign()
        self.drain()
        return 0

    def drain(self):
        self.middle.drain()


class Leg(Session):
    """A session of a node's channel with one Electrum. `place` tells its funding transaction from the other's."""

    def __init__(self, middle, role, place, **changed):
        super().__init__(role, node_priv=middle.key, **changed)
        self.place = ShortChannelID.from_components(el.HEIGHT, place, 0)
        old = self.host
        self.host = Side(middle, role, old.disk, old.limits, self.ledger, self.to_electrum, self.happened, self.pay)

    def confirm_us(self):
        self.host.command(lnlink.Confirm(bytes(self.place)))

    def confirm_electrum(self):
        self.chan.set_short_channel_id(self.place)
        self.chan.set_state(ChannelState.FUNDED)
        self.peer.send_funding_locked(self.chan)

    def happened(self, number, event):
        self.events += 1


class Middle:
    """Our node, between two Electrums."""

    def __init__(self, role):
        self.key = el.os.urandom(32)
        self.settings = lnlink.Settings(BASE_MSAT, MILLIONTHS, DELTA, el.os.urandom(32))
        self.sides = []
        self.batches = 0
        self.hold = False
        self.onions = 0             # that were opened
        self.node = lnlink.Node.load(self.settings)
        self.legs = [Leg(self, role, place) for place in (1, 2)]
        self.node.set_height(el.HEIGHT)

    async def ready(self):
        """Both channels are open."""
        for leg in self.legs:
            await leg.open()
            assert leg.chan is not None, (leg.host.refusals, leg.records.complaints())
            await leg.confirm()
            assert leg.chan.get_state() == ChannelState.OPEN
        return self

    # ---- what the node hands out

    def drain(self):
        while (item := self.node.next()) is not None:
            self.take(item)

    def take(self, item):
        if isinstance(item, lnlink.Batch):
            for (channel, _), record in zip(item.saved, item.records()):
                self.sides[channel].disk.save(record)
            self.batches += 1
            self.node.saved(item.number)
        elif isinstance(item, lnlink.NodeMessage):
            side = self.sides[item.channel]
            if isinstance(item.item, lnlink.BlankItem):
                self.node.fill(item.channel, item.message, side.fill(item.item.blank))
            else:
                self.node.sent(item.channel, item.message)
                side.send(item.item.message)
        elif isinstance(item, lnlink.OnionItem):
            self.node.onion(*item.incoming, self.opened(*item.incoming))
        elif isinstance(item, lnlink.WrapItem):
            self.node.fill(item.channel, item.message, self.wrapped(item))
        else:
            self.decide(item.channel, item.item)

    def opened(self, payment_hash, onion):
        """What is in an onion (BOLT 4, "Onion Decryption")."""
        self.onions += 1
        try:
            found = process_onion_packet(OnionPacket.from_bytes(onion), payment_hash, self.key)
        except UnsupportedOnionPacketVersion:
            return lnlink.WrongVersion()
        except InvalidOnionMac:
            return lnlink.WrongHmac()
        except InvalidOnionPubkey:
            return lnlink.WrongKey()
        payload = found.hop_data.to_bytes()[1:-32]  # of less than 253 bytes, before its HMAC
        return lnlink.Opened(payload, None if found.are_we_final else found.next_packet.to_bytes())

    def wrapped(self, item):
        """A failure as it goes back (BOLT 4, "Returning Errors")."""
        packet = OnionPacket.from_bytes(item.incoming[1])
        if not item.came_back:
            failure = OnionRoutingFailure(int.from_bytes(item.failure[:2], 'big'), item.failure[2:])
            return construct_onion_error(failure, packet, self.key)
        key = get_bolt04_onion_key(b'ammag', get_ecdh(self.key, packet.public_key))
        return xor_bytes(item.failure, generate_cipher_stream(key, len(item.failure)))

    def decide(self, channel, item):
        incoming = isinstance(item.event, lnlink.Added) and not item.event.own
        self.legs[channel].happened(item.number, item.event)
        verdict = lnlink.Hold() if self.hold and incoming else lnlink.GoOn()
        self.node.verdict(channel, item.number, verdict)

    # ---- time

    async def settle(self, quiet=0.4):
        """Delivers all that comes of both, until nothing has come for a while."""
        last = self.legs[0].loop.time()
        while self.legs[0].loop.time() - last < quiet:
            before = self.delivered
            for leg in self.legs:
                await leg.settle(0.02)
            if self.delivered > before:
                last = self.legs[0].loop.time()

    @property
    def delivered(self):
        return sum(leg.delivered for leg in self.legs)

    async def restart(self):
        """Our process was killed and comes up again with what is on its disk; both connections are new."""
        for leg in self.legs:
            await leg.lose(crashed=True)
        self.node.close()
        self.node = lnlink.Node.load(self.settings, [side.disk.saved for side in self.sides])
        self.node.set_height(el.HEIGHT)
        for channel, side in enumerate(self.sides):
            side.new_keys()
            side.link = NodeLink(self.node, channel)
        self.drain()
        await self.meet_again()

    async def cut(self):
        """Both connections are lost."""
        for leg in self.legs:
            await leg.lose()
        await self.meet_again()

    async def meet_again(self):
        for leg in self.legs:
            await leg.meet_again()
        await self.settle()

    # ---- payments

    def pay(self, by=0, known=True, place=None):
        """One Electrum pays the other, to an invoice of the other's or to none. Answers its hash."""
        payer, payee = self.legs[by], self.legs[1 - by]
        payment_hash, secret = payee.worker.expect(AMOUNT)
        if not known:
            del payee.worker.payments[payment_hash]
        nodes = (payer.worker.node_keypair.pubkey, payer.node_id, payee.worker.node_keypair.pubkey)
        first = el.route_to(nodes[0], nodes[1], payer.chan.short_channel_id)
        last = el.route_to(nodes[1], nodes[2], place or payee.chan.short_channel_id)
        last[0].fee_base_msat, last[0].fee_proportional_millionths = BASE_MSAT, MILLIONTHS
        payer.peer.pay(route=first + last, chan=payer.chan, amount_msat=AMOUNT, total_msat=AMOUNT,
                       payment_hash=payment_hash, min_final_cltv_expiry=200, payment_secret=secret)
        return payment_hash

    def failure(self, by=0):
        """How the last payment of one failed, and at which hop, as it reads that."""
        payer, payee = self.legs[by], self.legs[1 - by]
        id_, reason, _ = payer.worker.failed[-1]
        path = [payer.node_id, payee.worker.node_keypair.pubkey]
        failure, hop = decode_onion_error(reason, path, payer.chan.onion_keys[id_])
        return failure.code_name(), hop

    def check(self, paid):
        """When nothing is under way: so many payments were made each way, and all ends tell the same."""
        for leg, made in zip(self.legs, paid):
            assert sorted(leg.worker.fulfilled) == list(range(made)), (leg.worker.fulfilled, paid)
        fee = BASE_MSAT + AMOUNT * MILLIONTHS // 1_000_000
        first, second = (leg.host.link.look().own_msat for leg in self.legs)
        begun = sum(leg.push_msat if leg.role == FUNDEE else 1000 * leg.funding_sat - leg.push_msat
                    for leg in self.legs)
        assert first + second == begun + sum(paid) * fee, (first, second, begun)
        for leg in self.legs:
            assert leg.host.link.look().live_htlcs == 0
            leg.check_quiet()
            assert not leg.host.refusals, leg.host.refusals
            assert not leg.records.complaints(), leg.records.complaints()[:3]

    def done(self, note=''):
        """The session that the report is of."""
        self.legs[0].note = note
        return self.legs[0]


@case
async def forwards_both_ways(role):
    """Each Electrum pays the other."""
    m = await Middle(role).ready()
    for by in (0, 1, 0):
        m.pay(by)
    await m.settle()
    m.check((2, 1))
    assert m.onions == 3
    return m.done()


@case
async def forwards_a_failure(role):
    """The payee fails a payment: the payer reads who did."""
    m = await Middle(role).ready()
    m.pay(known=False)
    await m.settle()
    assert m.failure() == ('INCORRECT_OR_UNKNOWN_PAYMENT_DETAILS', 1), m.failure()
    m.check((0, 0))
    return m.done()


@case
async def fails_in_the_middle(role):
    """Our node fails a payment to a channel that it doesn't have: the payer reads that it was us."""
    m = await Middle(role).ready()
    m.pay(place=ShortChannelID.from_components(el.HEIGHT, 9, 9))
    await m.settle()
    assert m.failure() == ('UNKNOWN_NEXT_PEER', 0), m.failure()
    m.check((0, 0))
    return m.done()


@case
async def holds_a_forward_over_a_restart(role):
    """A payment is held, our process comes up again, and the payment goes on."""
    m = await Middle(role).ready()
    m.hold = True
    m.pay()
    await m.settle()
    assert len(m.node.held()) == 1 and not m.legs[0].worker.fulfilled
    await m.restart()
    m.hold = False
    held, = m.node.held()
    m.node.resume(held.channel, held.event, lnlink.GoOn())
    m.legs[0].host.sign()
    await m.settle()
    assert not m.node.held() and m.onions == 2
    m.check((1, 0))
    return m.done()


async def forward_once(role, leg, after, broken):
    """Two payments, one of which fails, with a break after so many messages of a leg."""
    m = await Middle(role).ready()

    async def breaks():
        await broken(m)

    m.legs[leg].cut_at, m.legs[leg].cut = m.legs[leg].delivered + after, breaks
    m.pay()
    await m.settle()
    m.pay(known=False)
    await m.settle()
    return m


async def forward_at_each(role, broken):
    """The same, with a break after each message of each leg."""
    runs = 0
    for leg in (0, 1):
        after = 1
        while True:
            m = await forward_once(role, leg, after, broken)
            if m.legs[leg].cut_at is not None:
                break
            m.check((1, 0))
            assert m.failure() == ('INCORRECT_OR_UNKNOWN_PAYMENT_DETAILS', 1), m.failure()
            for each in m.legs:
                await each.close_down()
            m.node.close()
            runs += 1
            after += 1
        for each in m.legs:
            await each.close_down()
    m.legs[0].note = '%d runs' % runs
    return m.done('%d runs' % runs)


async def cut_forward(role):
    """Both connections are lost after each message of a payment and of a failure."""
    return await forward_at_each(role, Middle.cut)


async def restarted_forward(role):
    """Our process is killed after each message of a payment and of a failure."""
    return await forward_at_each(role, Middle.restart)


CUTS['cut_forward'] = cut_forward
CUTS['restarted_forward'] = restarted_forward

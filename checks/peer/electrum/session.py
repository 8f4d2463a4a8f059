"""A channel between lnlink (a host with real keys) and Electrum's Peer, message by message."""
import asyncio
import collections
import os
import tempfile

import electrum_side as el
import lnlink
from electrum import bitcoin, ecc, util
from electrum.crypto import sha256
from electrum.lnchannel import ChannelState
from electrum.lnonion import (OnionFailureCode, OnionHopsDataSingle, OnionPacket, OnionRoutingFailure,
                              construct_onion_error, decode_onion_error, new_onion_packet, process_onion_packet)
from electrum.lnpeer import Peer
from electrum.lnutil import LOCAL, REMOTE, LnFeatures, ShortChannelID
from electrum.util import bfh
from host import STATIC_REMOTEKEY, Crash, Disk, Host
from keys import FUNDEE, FUNDER, POINTS, Ledger, flat

# What the host says in its init: the features that Electrum's wallet asks for.
FEATURES = (LnFeatures.OPTION_DATA_LOSS_PROTECT_OPT | LnFeatures.OPTION_STATIC_REMOTEKEY_OPT
            | LnFeatures.GOSSIP_QUERIES_OPT | LnFeatures.VAR_ONION_OPT | LnFeatures.PAYMENT_SECRET_OPT
            | LnFeatures.OPTION_SHUTDOWN_ANYSEGWIT_OPT | LnFeatures.OPTION_CHANNEL_TYPE_OPT)
KNOWN_EVEN = (0, 6, 12)     # of Electrum's init: data loss protect, gossip queries, static remotekey

NAMES = {1: 'warning', 16: 'init', 17: 'error', 18: 'ping', 19: 'pong', 32: 'open_channel', 33: 'accept_channel',
         34: 'funding_created', 35: 'funding_signed', 36: 'channel_ready', 38: 'shutdown', 39: 'closing_signed',
         128: 'update_add_htlc', 130: 'update_fulfill_htlc', 131: 'update_fail_htlc', 132: 'commitment_signed',
         133: 'revoke_and_ack', 134: 'update_fee', 135: 'update_fail_malformed_htlc', 136: 'channel_reestablish',
         258: 'channel_update', 265: 'gossip_timestamp_filter'}


def name_of(raw):
    typ = int.from_bytes(raw[:2], 'big')
    return NAMES.get(typ, str(typ))


def verdict(call, *given):
    """The number by which a call refuses, or 0."""
    try:
        call(*given)
    except lnlink.Refused as refused:
        return refused.number
    return 0


STARTED = []        # the sessions since the list was emptied, for reports


class Payment:
    """An HTLC that our side offers."""

    def __init__(self, amount, payment_hash, session_key):
        self.amount = amount
        self.payment_hash = payment_hash
        self.session_key = session_key


class Invoice:
    """What our side expects to be paid. `how`: fulfil, or malformed."""

    def __init__(self, amount, how='fulfil'):
        self.amount = amount
        self.how = how
        self.preimage = os.urandom(32)
        self.secret = os.urandom(32)
        self.payment_hash = sha256(self.preimage)


class Session:
    """Both ends of one channel. `changed` has values of our Config, and Electrum's options as `el_NAME`."""

    def __init__(self, role, funding_sat=1_000_000, push_msat=400_000_000, feerate=1000, features=FEATURES,
                 channel_type=STATIC_REMOTEKEY, node_priv=None, **changed):
        self.loop = asyncio.get_running_loop()
        util._asyncio_event_loop = self.loop
        self.role = role
        self.funding_sat = funding_sat
        self.push_msat = push_msat
        self.feerate = feerate
        self.features = features
        self.channel_type = channel_type
        self.records = el.keep_log()
        self.node_priv = node_priv or os.urandom(32)    # sessions of one node, as of one that forwards, share it
        self.node_id = ecc.ECPrivkey(self.node_priv).get_public_key_bytes(compressed=True)
        options = {k[3:]: v for k, v in changed.items() if k.startswith('el_')}
        self.worker = el.Worker(self.loop, el.make_config(tempfile.gettempdir(), options))
        self.worker.feerate = feerate
        self.script = bfh(bitcoin.address_to_script(self.worker.wallet.get_new_sweep_address_for_channel()))
        self.ledger = Ledger()
        self.values = self.config_values({k: v for k, v in changed.items() if not k.startswith('el_')})
        limits = tuple(self.values[n] for n in ('dust_limit_satoshis', 'to_self_delay', 'channel_reserve_satoshis'))
        self.host = Host(role, Disk(os.urandom(32)), limits, self.ledger, self.to_electrum, self.happened, self.pay)
        self.temporary_id = os.urandom(32)
        self.chan = None
        self.peer = None
        self.task = None            # Electrum's main loop
        self.flows = []             # what else runs at Electrum: reestablish, close
        self.trace = []             # ('E' or 'P', name of the message) in order, P is ours
        self.inbox = collections.deque()    # from Electrum, not yet delivered
        self.outbox = collections.deque()   # to Electrum, not yet delivered
        self.delivered = 0
        self.cut_at = None          # after how many delivered messages the connection is lost
        self.cut = None             # what is done then
        self.invoices = {}          # hash -> Invoice of ours
        self.sent = {}              # own HTLC id -> Payment
        self.results = {}           # own HTLC id -> 'fulfilled', 'malformed' or the failure's name
        self.received = {}          # peer's HTLC id -> 'fulfilled', 'failed', 'malformed'
        self.held = {}              # event's number -> Added, of those that wait
        self.events = 0
        self.reconnections = 0
        self.lost = 0
        self.crashes = 0
        self.note = ''
        STARTED.append(self)

    def config_values(self, changed):
        """Our Config without its points."""
        values = dict(
            htlc_minimum_msat=1, max_accepted_htlcs=30, max_htlc_value_in_flight_msat=self.funding_sat * 1000,
            channel_reserve_satoshis=max(self.funding_sat // 100, 546), chain_hash=el.CHAIN_HASH,
            dust_limit_satoshis=546, to_self_delay=144, minimum_depth=3,
            closing_fee_satoshis=500, min_closing_fee_satoshis=200, max_closing_fee_satoshis=5000,
            shutdown_scriptpubkey=self.script)
        return {**values, **changed}

    # ---- the connection

    def new_peer(self):
        self.transport = el.Transport(self.worker.node_keypair.privkey, self.node_id, self.from_electrum)
        self.peer = Peer(self.worker, self.node_id, self.transport)
        self.task = asyncio.ensure_future(self.peer.main_loop())

    async def greet(self):
        """Both say init, and wait for the other's."""
        self.new_peer()
        size = (int(self.features).bit_length() + 7) // 8
        self.to_electrum(lnlink.init(int(self.features).to_bytes(size, 'big'), [el.CHAIN_HASH]))
        await self.settle(0.05)

    async def connect(self):
        """The first connection of an opening."""
        await self.greet()
        await asyncio.wait_for(self.peer.initialized, 5)
        points = {name: self.host.keys.own.points[name] for name in POINTS}
        config = lnlink.Config(**{**points, **self.values})
        if self.role == FUNDER:
            records = ((0, b''),) + (((1, self.channel_type),) if self.channel_type is not None else ())
            config = lnlink.OpenSpec(
                config=config, funding_satoshis=self.funding_sat, push_msat=self.push_msat,
                feerate_per_kw=self.feerate, channel_flags=0, temporary_channel_id=self.temporary_id, records=records)
        self.host.begin(config)
        self.host.connect()

    async def lose(self, crashed=False):
        """The connection is lost, with all that is under way. A crashed host doesn't even hear of it."""
        self.lost += len(self.inbox) + len(self.outbox)
        self.inbox.clear()
        self.outbox.clear()
        self.transport.out = lambda msg: None
        self.transport.close()
        for flow in self.flows:
            flow.cancel()
        await asyncio.wait([self.task] + self.flows, timeout=5)
        self.flows = []
        self.inbox.clear()
        self.reconnections += 1
        if not crashed:
            self.host.disconnect()
            self.forget_unsigned()

    async def crash(self):
        """Our process was killed in the middle of a step. It comes up again, and there is a new connection."""
        self.crashes += 1
        await self.lose(crashed=True)
        self.restart()
        await self.meet_again()

    async def lose_tail(self, to_us, to_electrum):
        """Some of what is under way arrives, and the connection is lost with all after it."""
        for _ in range(min(to_electrum, len(self.outbox))):
            self.hand_over()
            await asyncio.sleep(0.001)
        for _ in range(min(to_us, len(self.inbox))):
            self.deliver()
        await self.lose()

    def restart(self, disk=None):
        """Our process comes up again, with what is on its disk (or on an older one)."""
        self.host.restart(disk)
        self.forget_unsigned()

    def restart_electrum(self, record=None):
        """Electrum comes up again, with what its wallet file has (or had)."""
        self.chan = self.worker.load(record or self.worker.record_of(self.chan))

    def forget_unsigned(self):
        """Own adds that no signature covered are gone, and their ids are used again."""
        first_free = self.host.link.look().next_htlc_id
        for id_ in [i for i in self.sent if i >= first_free]:
            del self.sent[id_]

    async def meet_again(self):
        """A new connection, and channel_reestablish of both, if Electrum still has the channel."""
        await self.greet()
        await asyncio.wait_for(self.peer.initialized, 5)
        if self.chan.should_try_to_reestablish_peer():
            self.flow(self.peer.reestablish_channel(self.chan))
        self.host.connect()

    def flow(self, coroutine):
        """Something that runs at Electrum until the connection is lost. What it raises is in Electrum's log."""
        flow = asyncio.ensure_future(coroutine)
        flow.add_done_callback(lambda f: f.cancelled() or f.exception())
        self.flows.append(flow)

    # ---- messages

    def from_electrum(self, raw):
        self.trace.append(('E', name_of(raw)))
        self.inbox.append(raw)

    def to_electrum(self, raw):
        self.trace.append(('P', name_of(raw)))
        self.outbox.append(raw)

    def hand_over(self):
        """Electrum gets the oldest message of ours."""
        self.delivered += 1
        self.transport.put(self.outbox.popleft())

    def deliver(self):
        """We take the oldest message of Electrum's: what is BOLT 1's by the host, else by the link; then we sign."""
        self.delivered += 1
        raw = self.inbox.popleft()
        name = name_of(raw)
        if name == 'init':
            self.init_verdict = verdict(lnlink.check_init, raw, KNOWN_EVEN)
            self.init_verdict_of_none = verdict(lnlink.check_init, raw, ())
            self.chain_verdict = verdict(lnlink.check_chains, raw, [el.CHAIN_HASH])
        elif name == 'ping':
            pong = lnlink.pong(raw)
            if pong:
                self.to_electrum(pong)
        elif int.from_bytes(raw[:2], 'big') not in range(256, 512):
            if self.host.take(raw) == 0:
                self.host.sign()

    # ---- events

    def happened(self, number, event):
        """What is to be done about an event: for an HTLC that came in, the command that removes it, or None."""
        self.events += 1
        if isinstance(event, lnlink.Added) and not event.own:
            if self.host.hold:
                self.held[number] = event
                return None
            self.held.pop(number, None)
            return self.removal_of(event)
        if isinstance(event, lnlink.Settled) and event.own:
            self.results[event.id] = self.result(event.id, event.how)
        return None

    def removal_of(self, added):
        """The final node's answer: the host opens the onion."""
        onion = OnionPacket.from_bytes(added.onion)
        opened = process_onion_packet(onion, associated_data=added.payment_hash, our_onion_private_key=self.node_priv)
        assert opened.are_we_final
        payload = opened.hop_data.payload
        invoice = self.invoices.get(added.payment_hash)
        good = (invoice is not None and invoice.amount == added.amount_msat
                and payload['amt_to_forward']['amt_to_forward'] == added.amount_msat
                and payload['payment_data']['payment_secret'] == invoice.secret)
        if good and invoice.how == 'malformed':
            self.received[added.id] = 'malformed'
            return lnlink.Malformed(added.id, sha256(added.onion), int(OnionFailureCode.INVALID_ONION_HMAC))
        if good:
            self.received[added.id] = 'fulfilled'
            return lnlink.Fulfil(added.id, invoice.preimage)
        self.received[added.id] = 'failed'
        failure = OnionRoutingFailure(
            code=OnionFailureCode.INCORRECT_OR_UNKNOWN_PAYMENT_DETAILS,
            data=added.amount_msat.to_bytes(8, 'big') + el.HEIGHT.to_bytes(4, 'big'))
        return lnlink.Fail(added.id, construct_onion_error(failure, onion, our_onion_private_key=self.node_priv))

    def result(self, id_, how):
        if isinstance(how, lnlink.Fulfilled):
            assert sha256(how.payment_preimage) == self.sent[id_].payment_hash
            return 'fulfilled'
        if isinstance(how, lnlink.FailedMalformed):
            return 'malformed'
        failure, _ = decode_onion_error(how.reason, [self.worker.node_keypair.pubkey], self.sent[id_].session_key)
        return failure.code_name()

    def hold(self):
        """From now on nobody answers HTLCs."""
        self.host.hold = True
        self.worker.enable_htlc_settle = False

    def release(self, sign=True):
        """Both answer the HTLCs that wait, and those that come."""
        self.host.hold = False
        self.worker.enable_htlc_settle = True
        for number in list(self.held):
            added = self.held.pop(number)
            self.host.release(number, self.removal_of(added))
        if sign:
            self.host.sign()

    # ---- time

    async def settle(self, quiet=0.4, until=None):
        """Delivers all that comes, until nothing has come for a while (or until something holds)."""
        last = self.loop.time()
        while self.loop.time() - last < quiet:
            for queue, step in ((self.outbox, self.hand_over), (self.inbox, self.deliver)):
                if queue:
                    try:
                        step()
                    except Crash:
                        await self.crash()
                    last = self.loop.time()
                    await asyncio.sleep(0.001)
                    if self.cut_at is not None and self.delivered >= self.cut_at:
                        self.cut_at = None
                        await self.cut()
                        last = self.loop.time()
                if until is not None and until():
                    return
            await asyncio.sleep(0.005)

    # ---- what users do

    async def open(self):
        """An opening, until both know the channel or one has refused."""
        await self.connect()
        if self.role == FUNDEE:
            flow = asyncio.ensure_future(self.peer.channel_establishment_flow(
                funding_tx=el.funding_tx(el.lnutil.ln_dummy_address(), self.funding_sat),
                funding_sat=self.funding_sat, push_msat=self.push_msat, temp_channel_id=self.temporary_id))
            await self.settle(0.3)
            if not flow.done():
                flow.cancel()
                await asyncio.wait([flow])
            elif flow.exception() is None:
                self.chan, _ = flow.result()
            else:
                self.records.lines.append(('ERROR', 'Exception ' + repr(flow.exception())))
        else:
            await self.settle(0.3)
            self.chan = next(iter(self.worker.channels.values()), None)

    def pay(self, address, satoshi):
        """Our wallet makes the funding transaction."""
        return el.funding_tx(address, satoshi).txid(), 0

    def confirm_us(self):
        self.host.command(lnlink.Confirm(lnlink.short_channel_id(el.HEIGHT, 1, self.host.keys.outpoint[1])))

    def confirm_electrum(self):
        place = ShortChannelID.from_components(el.HEIGHT, 1, self.host.keys.outpoint[1])
        self.chan.set_short_channel_id(place)
        self.chan.set_state(ChannelState.FUNDED)
        self.peer.send_funding_locked(self.chan)

    async def confirm(self, electrum_first=True):
        """The funding is deep enough, for one and then for the other."""
        for step in ((self.confirm_electrum, self.confirm_us) if electrum_first
                     else (self.confirm_us, self.confirm_electrum)):
            step()
            await self.settle(0.1)

    def invoice(self, amount, how='fulfil'):
        invoice = Invoice(amount, how)
        self.invoices[invoice.payment_hash] = invoice
        return invoice

    def electrum_pays(self, amount, how='fulfil'):
        """Electrum offers an HTLC: to an invoice of ours, or to none (`fail`)."""
        invoice = Invoice(amount) if how == 'fail' else self.invoice(amount, how)
        return self.peer.pay(
            route=el.route_to(self.worker.node_keypair.pubkey, self.node_id, self.chan.short_channel_id),
            chan=self.chan, amount_msat=amount, total_msat=amount, payment_hash=invoice.payment_hash,
            min_final_cltv_expiry=200, payment_secret=invoice.secret)

    def we_pay(self, amount, known=True, sign=True, expiry=None, twin_of=None):
        """We offer an HTLC: to an invoice of Electrum's, or to none. Answers the refusal's number, or 0."""
        if twin_of is not None:
            payment_hash, secret = twin_of
        else:
            payment_hash, secret = self.worker.expect(amount) if known else (os.urandom(32), os.urandom(32))
        expiry = expiry or el.HEIGHT + 160
        session_key = os.urandom(32)
        hop = OnionHopsDataSingle(is_tlv_payload=True, payload={
            'amt_to_forward': {'amt_to_forward': amount}, 'outgoing_cltv_value': {'outgoing_cltv_value': expiry},
            'payment_data': {'payment_secret': secret, 'total_msat': amount}})
        onion = new_onion_packet([self.worker.node_keypair.pubkey], session_key, [hop], associated_data=payment_hash)
        id_ = self.host.link.look().next_htlc_id
        self.sent[id_] = Payment(amount, payment_hash, session_key)
        number = self.host.command(lnlink.Add(amount, payment_hash, expiry, onion.to_bytes()))
        if number:
            del self.sent[id_]
        elif sign:
            self.host.sign()
        return number

    async def set_fee(self, feerate):
        """The funder changes the feerate."""
        if self.role == FUNDER:
            self.host.command(lnlink.Fee(feerate))
            self.host.sign()
        else:
            self.worker.feerate = feerate
            await self.peer.maybe_update_fee(self.chan)

    def shut_down(self):
        return self.host.command(lnlink.Shutdown(self.script))

    def electrum_closes(self):
        self.flow(self.peer.close_channel(self.chan.channel_id))

    # ---- what has to hold

    def broadcast(self):
        return self.worker.network.broadcast

    def check_always(self):
        """What holds at any moment: one view a number; the commitment on disk isn't revoked, and can be published."""
        assert self.ledger.signs_once(), 'a number was signed with two views'
        disk = self.host.disk
        if disk.signatures is not None:
            assert disk.signatures.number not in self.ledger.revealed, 'the own commitment on disk is revoked'
            assert self.host.own_commitment().txid() == self.ledger.accepted[disk.signatures.number]

    def check_quiet(self):
        """When nothing is under way: both ends tell the same of both commitments; our disk has all for the chain."""
        self.check_always()
        link, chan = self.host.link, self.chan
        for which, owner in ((lnlink.Commitment.OWN, REMOTE), (lnlink.Commitment.PEER, LOCAL)):
            ours, theirs = self.as_electrum(link.view(which)), el.view_of(chan, owner)
            assert ours == theirs, (which, ours, theirs)
        seen = link.look()
        assert seen.commitment_number == chan.get_latest_ctn(REMOTE)
        assert seen.signed_number == chan.get_latest_ctn(LOCAL)
        assert self.ledger.signed[seen.signed_number][0][2] == chan.get_latest_commitment(LOCAL).txid()
        self.check_disk()

    def as_electrum(self, view):
        """A view in the form of `electrum_side.view_of`."""
        balance = (view.funder_msat, view.fundee_msat)
        htlcs = [(owner != self.role, *rest) for owner, *rest in flat(view)[3]]
        return balance[self.role], balance[1 - self.role], view.feerate_per_kw, sorted(htlcs)

    def check_disk(self):
        """From our disk alone: the own commitment as Electrum knows it, and the keys of all revoked ones."""
        disk, chan, keys = self.host.disk, self.chan, self.host.keys
        assert self.host.own_commitment().txid() == chan.get_latest_commitment(REMOTE).txid()
        assert sorted(disk.secrets) == list(range(chan.get_oldest_unrevoked_ctn(LOCAL))), sorted(disk.secrets)
        for number, secret in disk.secrets.items():
            assert keys.penalty_fits(secret, self.ledger.signed[number][0][0])

    async def close_down(self):
        """Ends what runs, so that the next session begins on its own."""
        if self.task is not None and not self.task.done():
            self.transport.out = lambda msg: None
            self.transport.close()
            for flow in self.flows:
                flow.cancel()
            await asyncio.wait([self.task] + self.flows, timeout=5)
        if self.host.link is not None:
            self.host.link.close()

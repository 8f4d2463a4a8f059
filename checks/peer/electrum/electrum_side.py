"""The other side: Electrum's own Peer and Channel, unchanged, over a transport in memory and a mock of a wallet.

Electrum's code decides everything of the protocol. The mock has keys, preimages and a block height, and it keeps what
Electrum would broadcast. It has no chain. Time is the loop's own: it passes when nobody has anything to do.
"""
import asyncio
import json
import logging
import os
import random
import selectors
import threading

from electrum import bitcoin, constants, ecc, lnutil
from electrum.crypto import sha256
from electrum.json_db import JsonDBJsonEncoder, StoredDict
from electrum.lnchannel import Channel, ChannelState, PeerState
from electrum.lnpeer import Peer
from electrum.lnrouter import RouteEdge
from electrum.lntransport import LNTransportBase
from electrum.lnutil import (Keypair, LightningPeerConnectionClosed, ShortChannelID, LOCAL, RECEIVED, REMOTE,
                             derive_payment_secret_from_payment_preimage)
from electrum.lnworker import LNWALLET_FEATURES, PaymentInfo
from electrum.simple_config import SimpleConfig
from electrum.transaction import PartialTransaction, PartialTxInput, PartialTxOutput, TxOutpoint
from electrum.wallet_db import WalletDB

constants.set_regtest()
Peer.DELAY_INC_MSG_PROCESSING_SLEEP = 0     # Electrum's brake on messages that come in; nothing of the protocol
HEIGHT = 1000
CHAIN_HASH = constants.net.rev_genesis_bytes()


class JumpingSelector(selectors.DefaultSelector):
    """Where the loop would wait, its time jumps instead."""

    def select(self, timeout=None):
        events = super().select(0)
        if not events:
            if timeout is None:
                raise Exception('nobody has anything to do any more')
            self.now = self.now + timeout
        return events


class JumpingLoop(asyncio.SelectorEventLoop):
    """An event loop whose seconds cost nothing. All of a session happens in it, and nothing outside."""

    def __init__(self):
        selector = JumpingSelector()
        selector.now = 0.0
        self.selector_of_time = selector
        super().__init__(selector)

    def time(self):
        return self.selector_of_time.now


def seed_all(seed):
    """Keys, secrets and hashes of both ends follow from a seed, so that a run can be done again."""
    chance = random.Random(seed)
    os.urandom = chance.randbytes
    ecc.randrange = lambda bound: chance.randrange(1, bound)


class Transport(LNTransportBase):
    """Messages in memory: what Electrum sends goes to `out`, what it is to read is put in."""

    def __init__(self, privkey, remote, out):
        self.privkey = privkey
        self.remote = remote
        self.out = out
        self.queue = asyncio.Queue()
        self.closed = False

    def name(self):
        return 'memory'

    def remote_pubkey(self):
        return self.remote

    def send_bytes(self, msg):
        if not self.closed:
            self.out(bytes(msg))

    def put(self, msg):
        if not self.closed:
            self.queue.put_nowait(msg)

    async def read_messages(self):
        while True:
            msg = await self.queue.get()
            if msg is None:
                raise LightningPeerConnectionClosed()
            yield msg

    def close(self):
        if not self.closed:
            self.closed = True
            self.queue.put_nowait(None)


class Chain:
    def height(self):
        return HEIGHT

    def is_tip_stale(self):
        return False


class Network:
    lngossip = None

    def __init__(self, loop, config):
        self.asyncio_loop = loop
        self.config = config
        self.broadcast = []         # (why, transaction)

    def blockchain(self):
        return Chain()

    def get_local_height(self):
        return HEIGHT

    async def try_broadcasting(self, tx, name):
        self.broadcast.append((name, tx))


class Adb:
    def add_transaction(self, tx):
        pass


class Wallet:
    txin_type = 'p2wpkh'

    def __init__(self):
        self.adb = Adb()
        self.keys = {}

    def get_new_sweep_address_for_channel(self):
        pub = ecc.ECPrivkey.generate_random_key().get_public_key_bytes(compressed=True)
        address = bitcoin.pubkey_to_address('p2wpkh', pub.hex())
        self.keys[address] = pub.hex()
        return address

    def get_public_key(self, address):
        return self.keys[address]

    def is_mine(self, address):
        return address in self.keys

    def is_change(self, address):
        return False

    def set_reserved_state_of_address(self, address, *, reserved):
        pass


class Database:
    """What Electrum's wallet file does to a channel that is read from it."""
    _convert_dict = WalletDB._convert_dict
    _convert_value = WalletDB._convert_value
    _should_convert_to_stored_dict = WalletDB._should_convert_to_stored_dict

    def __init__(self):
        self.lock = threading.RLock()

    def set_modified(self, modified):
        pass


class Worker:
    """What Electrum's Peer asks of LNWallet."""
    lnwatcher = None
    enable_htlc_forwarding = True

    def __init__(self, loop, config, features=LNWALLET_FEATURES):
        self.db = Database()
        self.features = features
        self.network = Network(loop, config)
        self.wallet = Wallet()
        priv = os.urandom(32)
        self.node_keypair = Keypair(pubkey=ecc.ECPrivkey(priv).get_public_key_bytes(compressed=True), privkey=priv)
        self.channels = {}
        self.peers = {}
        self.payments = {}          # hash -> PaymentInfo
        self.preimages = {}
        self.feerate = 1000
        self.enable_htlc_settle = True
        self.fulfilled = []         # ids of HTLCs that Electrum sent, and the peer fulfilled
        self.failed = []            # (id, error bytes, failure) of those that failed
        self.paid = []              # hashes that Electrum was paid for
        self.force_closing = []
        self.downstream_htlc_to_upstream_peer_map = {}
        self.trampoline_forwarding_failures = {}

    def current_feerate_per_kw(self):
        return self.feerate

    def channels_for_peer(self, pubkey):
        return {i: c for i, c in self.channels.items() if c.node_id == pubkey}

    def get_channel_by_id(self, channel_id):
        return self.channels.get(channel_id)

    def get_channel_by_short_id(self, short_id):
        return None

    def add_new_channel(self, chan):
        self.channels[chan.channel_id] = chan

    def save_channel(self, chan):
        pass

    def channel_state_changed(self, chan):
        pass

    def on_peer_successfully_established(self, peer):
        self.peers[peer.pubkey] = peer

    def peer_closed(self, peer):
        for chan in self.channels_for_peer(peer.pubkey).values():
            chan.peer_state = PeerState.DISCONNECTED
        self.peers.pop(peer.pubkey, None)

    def uses_trampoline(self):
        return False

    def is_trampoline_peer(self, pubkey):
        return False

    def has_recoverable_channels(self):
        return False

    def schedule_force_closing(self, channel_id):
        """As LNWallet: Electrum's own commitment, signed by both, goes out."""
        self.force_closing.append(channel_id)
        chan = self.channels[channel_id]
        tx = chan.force_close_tx()
        chan.set_state(ChannelState.FORCE_CLOSING)
        self.network.broadcast.append(('force-close', tx))

    def get_payment_info(self, payment_hash):
        return self.payments.get(payment_hash)

    def get_preimage(self, payment_hash):
        return self.preimages.get(payment_hash)

    def save_preimage(self, payment_hash, preimage):
        self.preimages[payment_hash] = preimage

    def set_request_status(self, payment_hash, status):
        if payment_hash not in self.paid:
            self.paid.append(payment_hash)

    def htlc_fulfilled(self, chan, payment_hash, htlc_id):
        self.fulfilled.append(htlc_id)

    def htlc_failed(self, chan, payment_hash, htlc_id, error_bytes, failure_message):
        self.failed.append((htlc_id, error_bytes, failure_message))

    # ---- for the session

    def expect(self, amount_msat):
        """An invoice: the payment's hash and secret."""
        preimage = os.urandom(32)
        payment_hash = sha256(preimage)
        self.preimages[payment_hash] = preimage
        self.payments[payment_hash] = PaymentInfo(payment_hash, amount_msat, RECEIVED, 0)
        return payment_hash, derive_payment_secret_from_payment_preimage(preimage)

    @staticmethod
    def record_of(chan):
        """What the wallet's file has of the channel."""
        return json.dumps(chan.storage, cls=JsonDBJsonEncoder)

    def load(self, record):
        """The wallet comes up again, with what its file has."""
        chan = Channel(StoredDict(json.loads(record), self.db, []), lnworker=self)
        self.channels[chan.channel_id] = chan
        return chan


class Records(logging.Handler):
    """What Electrum logs, kept."""

    def __init__(self):
        logging.Handler.__init__(self)
        self.lines = []

    def emit(self, record):
        text = record.getMessage()
        if record.exc_info and record.exc_info[1] is not None:
            text += ' | %r' % (record.exc_info[1],)
        self.lines.append((record.levelname, text))

    def complaints(self):
        """What Electrum found wrong, but for lost connections."""
        bad = [text for level, text in self.lines
               if level in ('WARNING', 'ERROR', 'CRITICAL') or 'Disconnecting' in text or 'Exception' in text]
        return [text for text in bad if 'LightningPeerConnectionClosed' not in text]


def keep_log():
    """A new list of all that Electrum logs from now on."""
    logger = logging.getLogger('electrum')
    logger.setLevel(logging.DEBUG)
    logger.propagate = False
    for handler in list(logger.handlers):
        logger.removeHandler(handler)
    records = Records()
    logger.addHandler(records)
    return records


def funding_tx(address, amount_sat):
    """A transaction of one segwit input that pays an address: what a wallet would make."""
    txin = PartialTxInput(prevout=TxOutpoint(txid=os.urandom(32), out_idx=0))
    txin.script_type = 'p2wpkh'
    txin.pubkeys = [ecc.ECPrivkey.generate_random_key().get_public_key_bytes(compressed=True)]
    txin.num_sig = 1
    txin._trusted_value_sats = amount_sat + 10_000
    txout = PartialTxOutput.from_address_and_value(address, amount_sat)
    return PartialTransaction.from_io([txin], [txout], locktime=0, version=2)


def route_to(start, end, short_id):
    return [RouteEdge(start_node=start, end_node=end, short_channel_id=ShortChannelID.normalize(short_id),
                      fee_base_msat=0, fee_proportional_millionths=0, cltv_expiry_delta=144, node_features=0)]


def make_config(folder, options):
    return SimpleConfig({**options, 'electrum_path': folder})


def view_of(chan, owner):
    """Electrum's latest commitment of an owner: the peer's balance, Electrum's, the feerate, and the HTLCs.

    An HTLC is (whether Electrum offers it, id, amount in msat, hash, expiry).
    """
    ctn = chan.get_latest_ctn(owner)
    htlcs = []
    for direction, htlc in chan.hm.htlcs(owner, ctn):
        by_owner = direction == lnutil.SENT
        htlcs.append((by_owner == (owner == LOCAL), htlc.htlc_id, htlc.amount_msat, htlc.payment_hash,
                      htlc.cltv_expiry))
    return (chan.balance_minus_outgoing_htlcs(REMOTE, ctx_owner=owner, ctn=ctn),
            chan.balance_minus_outgoing_htlcs(LOCAL, ctx_owner=owner, ctn=ctn),
            chan.get_feerate(owner, ctn=ctn), sorted(htlcs))

"""The host of one end: a link, its keys and its disk. It saves before it answers, fills blanks, answers questions."""
import copy

import lnlink
from electrum import ecc, lnutil
from electrum.lnmsg import decode_msg
from electrum.util import bfh
from keys import FUNDER, POINTS, Keys

LATER = (40, 41, 42, 47)        # a command that is given again: not ready, or not now
STATIC_REMOTEKEY = b'\x10\x00'  # the channel type whose transactions `keys` makes
MOST_DELAY = 2016               # blocks that our own money may be locked for after our own close


class Crash(Exception):
    """The host stops in the middle of a step, as a killed process would."""


def unfit(m, tlvs, reserve):
    """Why a host doesn't take an open_channel or accept_channel, or None. The link carries these values unseen."""
    kind = (m[tlvs].get('channel_type') or {}).get('type')
    if kind is not None and kind.lstrip(b'\0') != STATIC_REMOTEKEY:
        return 'channel type'
    if not 354 <= m['dust_limit_satoshis'] <= min(m['channel_reserve_satoshis'], reserve):
        return 'dust limit or reserve'
    if m['to_self_delay'] > MOST_DELAY:
        return 'to_self_delay'
    if m['max_accepted_htlcs'] < 5 or m['htlc_minimum_msat'] > 1000:
        return 'limits of HTLCs'
    if not all(ecc.ECPubkey.is_pubkey_bytes(m[name]) for name in POINTS + ('first_per_commitment_point',)):
        return 'a point'
    if 'feerate_per_kw' in m and m['feerate_per_kw'] < 253:
        return 'feerate'
    if 'funding_satoshis' in m and not payable_at_first(m, reserve):
        return 'the first commitment'
    return None


def payable_at_first(m, reserve):
    """Whether the funder can pay the first commitment's fee, and one side has more than the reserve."""
    funder_msat = m['funding_satoshis'] * 1000 - m['push_msat']
    fee = lnutil.calc_fees_for_commitment_tx(num_htlcs=0, feerate=m['feerate_per_kw'], is_local_initiator=True)
    return funder_msat >= fee[lnutil.LOCAL] and max(funder_msat, m['push_msat']) > 1000 * reserve


class Disk:
    """What a database would have: bytes and numbers. Each save is one transaction."""

    def __init__(self, seed):
        self.seed = seed
        self.saved = None           # the last record, whole, as `Link.load` takes it
        self.secrets = {}           # number of the peer's revoked commitment -> its secret
        self.terms = None           # the peer's open_channel or accept_channel
        self.funding = None         # (txid, output)
        self.funding_sat = None
        self.answers = {}           # id of an HTLC of the peer's -> the command that removes it
        self.saves = 0
        self.older = None           # a list: what the disk had after each save is kept there

    def save(self, record):
        """A RECORD item, whole. The peer's secrets stand in it once, so they are kept beside it."""
        assert self.saved is None or self.signatures is None or record.signatures is not None
        self.saved = record.saved()
        for number, secret in record.secrets:
            assert self.secrets.get(number, secret) == secret
            self.secrets[number] = secret
        self.saves += 1
        if self.older is not None:
            self.older.append(self.copy())

    @property
    def signatures(self):
        """The peer's over the own commitment, with its number, as the saved record has them."""
        return None if self.saved is None else lnlink.Record.from_saved(self.saved).signatures

    def copy(self):
        """What a backup of this moment has."""
        older, self.older = self.older, None
        copied = copy.deepcopy(self)
        self.older = older
        return copied


class Host:
    """One end. What it sends goes to `send`. `happened(number, event)` answers what removes an HTLC that came in;
    `pay(address, satoshi)` makes a funding transaction and answers its txid and output."""

    def __init__(self, role, disk, limits, ledger, send, happened, pay):
        self.role = role
        self.disk = disk
        self.limits = limits            # dust limit, to_self_delay and channel reserve that this side has told
        self.ledger = ledger
        self.send = send
        self.happened = happened
        self.pay = pay
        self.link = None
        self.refusals = []              # (what was given, the refusal's number)
        self.asked = {}                 # questions and blanks by kind
        self.undecided = []             # events that are to be decided, in turn
        self.careful = True             # whether it looks at the terms of an opening
        self.hold = False               # whether HTLCs that come in are marked as held
        self.closed = None              # the closing fee
        self.closing_tx = None          # the last closing transaction that the peer has signed, complete
        self.lost_data = None           # whose data is lost, where a channel_reestablish was refused by 34
        self.crash_after = None         # how many items of the line are taken before a crash
        self.new_keys()

    def new_keys(self):
        self.keys = Keys(self.role, self.disk.seed, *self.limits[:2], self.ledger)
        if self.disk.terms is not None:
            self.keys.learn_terms(self.disk.terms)
        if self.disk.funding is not None:
            self.keys.learn_funding(*self.disk.funding)
        if self.disk.funding_sat is not None:
            self.keys.funding_sat = self.disk.funding_sat

    # ---- the link's life

    def begin(self, what):
        """A new channel: by an OpenSpec as funder, by a Config as fundee."""
        if isinstance(what, lnlink.OpenSpec):
            self.disk.funding_sat = self.keys.funding_sat = what.funding_satoshis
            self.link = lnlink.Link.open(what, self.keys.point(0))
        else:
            self.link = lnlink.Link.accept(what, self.keys.point(0))

    def restart(self, disk=None):
        """A process that comes up again: it has what the disk has, and nothing else."""
        self.link.close()
        if disk is not None:
            self.disk = disk
        self.undecided = []
        self.crash_after = None
        self.new_keys()
        self.link = lnlink.Link.load(self.disk.saved)
        self.drain()

    def connect(self):
        self.call('connect', self.link.connect)

    def disconnect(self):
        self.crash_after = None
        self.call('disconnect', self.link.disconnect)

    # ---- steps

    def call(self, name, step, *given):
        """A call of the link, and what follows from it. Answers the refusal's number, or 0."""
        number = 0
        try:
            step(*given)
        except lnlink.Refused as refused:
            number = refused.number
            if name == 'channel_reestablish':
                self.lost_data = refused.lost_data
            if not (name == 'Sign' and number in LATER):
                self.refusals.append((name, number))
        self.drain()
        return number

    def command(self, command):
        return self.call(type(command).__name__, self.link.command, command)

    def sign(self):
        return self.command(lnlink.Sign())

    def take(self, raw):
        """A message of the peer's: what the host learns from it, the question, the message."""
        name, message = decode_msg(raw)
        if name in ('open_channel', 'accept_channel'):
            why = unfit(message, name + '_tlvs', self.limits[2])
            if why is not None and self.careful:
                self.refusals.append((name, why))
                self.send(lnlink.error(lnlink.channel_of(raw), why))
                return None
            self.disk.terms = raw
            self.keys.learn_terms(raw)
            if name == 'accept_channel':
                self.fund()
        elif name == 'funding_created':
            self.learn_funding(message['funding_txid'][::-1].hex(), message['funding_output_index'])
        question = self.link.question(raw)
        answer = b'' if question is None else self.answer(question, message)
        number = self.call(name, self.link.message, raw, answer)
        if name == 'channel_reestablish' and number == 0:
            self.remove_again()
        return number

    def learn_funding(self, txid, index):
        self.disk.funding = (txid, index)
        self.keys.learn_funding(txid, index)

    def fund(self):
        """Now that the fundee's key is known, the funder makes the funding transaction."""
        txid, index = self.pay(self.keys.funding_address(), self.keys.funding_sat)
        self.learn_funding(txid, index)
        self.link.fund(bfh(txid)[::-1], index)

    # ---- questions and blanks

    def count(self, what):
        name = type(what).__name__
        self.asked[name] = self.asked.get(name, 0) + 1

    def answer(self, question, message):
        self.count(question)
        keys = self.keys
        if isinstance(question, lnlink.SignaturesQuestion):
            htlcs = message.get('htlc_signature') or b''
            htlcs = [htlcs[i:i + 64] for i in range(0, len(htlcs), 64)]
            return bytes([keys.accepts(question.number, question.view, message['signature'], htlcs)])
        if isinstance(question, lnlink.FirstQuestion):
            if self.disk.saved is not None:
                return b'\2'
            return bytes([keys.accepts(0, question.view, message['signature'], [])])
        if isinstance(question, lnlink.SecretQuestion):
            secret = message['per_commitment_secret']
            return bytes([self.secret_is_next(question.number, secret)
                          and keys.secret_fits(question.number, secret, question.point)])
        if isinstance(question, lnlink.CloseQuestion):
            tx = keys.accepts_close(question.closing, message['signature'])
            if tx is not None:
                self.closing_tx = keys.complete(tx, message['signature'])
            return bytes([tx is not None])
        if isinstance(question, lnlink.OwnSecretQuestion):
            return keys.secret(question.number)
        if isinstance(question, lnlink.NewQuestion):
            return bytes([self.disk.saved is None])
        raise Exception(question)

    def secret_is_next(self, number, secret):
        """Whether the secret is one that BOLT 3's tree has after all before it (which a watchtower relies on)."""
        store = lnutil.RevocationStore({})
        try:
            for one in [self.disk.secrets[n] for n in range(number)] + [secret]:
                store.add_next_entry(one)
        except Exception:
            return False
        return True

    def fill(self, blank):
        self.count(blank)
        if isinstance(blank, lnlink.SignaturesBlank):
            return self.keys.signatures(blank.number, blank.point, blank.view)
        if isinstance(blank, lnlink.RevocationBlank):
            assert blank.secret_number < self.disk.signatures.number, 'a secret of the commitment that is on disk'
            return self.keys.reveal(blank.secret_number) + self.keys.point(blank.point_number)
        if isinstance(blank, lnlink.PointBlank):
            return self.keys.point(blank.number)
        if isinstance(blank, lnlink.CloseBlank):
            return self.keys.sign_close(blank.closing)
        raise Exception(blank)

    # ---- the line

    def drain(self):
        """All that stands in the line: records are saved before what follows them is sent."""
        while True:
            item = self.link.next()
            if item is None:
                if not self.undecided:
                    return
                self.decide(*self.undecided.pop(0))
                continue
            if self.crash_after is not None:
                if self.crash_after == 0:
                    raise Crash()
                self.crash_after -= 1
            self.take_off(item)

    def take_off(self, item):
        if isinstance(item, lnlink.BlankItem):
            self.link.done(self.fill(item.blank))
            return
        if isinstance(item, lnlink.Record):
            self.disk.save(item)
        elif isinstance(item, lnlink.Send):
            self.send(item.message)
        elif isinstance(item, lnlink.EventItem):
            self.undecided.append((item.number, item.event))
        elif isinstance(item, lnlink.Closed):
            self.closed = item.fee_satoshis
        self.link.done()

    def decide(self, number, event):
        """Decides an event. An HTLC that came in is answered, or held."""
        mark = lnlink.NoMark()
        incoming = isinstance(event, lnlink.Added) and not event.own
        if incoming and self.hold:
            mark = lnlink.HeldMark(number)
        if isinstance(event, lnlink.Settled) and not event.own:
            self.disk.answers.pop(event.id, None)
        removal = self.happened(number, event)
        if incoming and removal is not None:
            self.disk.answers[event.id] = removal
        try:
            self.link.command(lnlink.Decide(number, mark))
        except lnlink.Refused as refused:
            self.refusals.append(('Decide', refused.number))
        if incoming and removal is not None:
            self.remove(removal)

    def remove(self, removal):
        """Removes an HTLC, now or after the next connection. What was removed already is no fault."""
        try:
            self.link.command(removal)
        except lnlink.Refused as refused:
            if refused.number not in (47, 49):
                self.refusals.append((type(removal).__name__, refused.number))

    def remove_again(self):
        """What no signature covered when the connection was lost is commanded anew."""
        for removal in list(self.disk.answers.values()):
            self.remove(removal)
        self.drain()

    def release(self, number, removal):
        """A held HTLC is answered after all."""
        self.disk.answers[removal.id] = removal
        if self.command(lnlink.Resume(number, lnlink.NoMark())) == 40:
            self.refusals.pop()     # it was told again after a crash, and decided otherwise
        self.remove(removal)
        self.drain()

    # ---- what the peer would take

    def affords(self, amount_msat=None, feerate=None):
        """Whether both next commitments stay payable for the funder, with reserves, and room for two HTLCs more."""
        for which in (lnlink.Commitment.TO_SIGN, lnlink.Commitment.TO_ACCEPT):
            view = self.link.view(which)
            balance = [view.funder_msat, view.fundee_msat]
            if amount_msat is not None:
                balance[self.role] -= amount_msat
            fees = lnutil.calc_fees_for_commitment_tx(
                num_htlcs=len(view.htlcs) + 3, feerate=2 * max(view.feerate_per_kw, feerate or 0),
                is_local_initiator=True)[lnutil.LOCAL]
            reserve = 1000 * max(self.reserves)
            if balance[FUNDER] < reserve + fees or balance[self.role] < reserve:
                return False
        return True

    @property
    def reserves(self):
        """What either side has to keep, in satoshi."""
        return self.limits[2], decode_msg(self.disk.terms)[1]['channel_reserve_satoshis']

    # ---- for the chain

    def own_commitment(self):
        """The own commitment with both signatures, from the disk alone, as it would be published."""
        held = self.disk.signatures
        link = lnlink.Link.load(self.disk.saved)
        view = link.view(lnlink.Commitment.OWN)
        assert link.look().commitment_number == held.number
        link.close()
        assert self.keys.accepts(held.number, view, held.signature, held.htlc_signatures)
        tx, _ = self.keys.commitment(True, held.number, self.keys.point(held.number), view)
        return self.keys.complete(tx, held.signature)

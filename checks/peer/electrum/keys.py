"""Real keys of one end: secrets, BOLT 3 transactions and ECDSA signatures, by Electrum's lnutil and libsecp256k1.

Beside what a question or a blank says (number, point, view), a transaction needs both sides' five points, dust limits
and to_self_delay, the funding's outpoint and amount. These are the terms: `learn_terms` and `learn_funding` take them
from the messages of the opening.
"""
from electrum import bitcoin, ecc, lnutil
from electrum.crypto import sha256, sha256d
from electrum.lnmsg import decode_msg
from electrum.lnutil import LOCAL, REMOTE, RevocationStore
from electrum.util import bfh

POINTS = ('funding_pubkey', 'revocation_basepoint', 'payment_basepoint', 'delayed_payment_basepoint', 'htlc_basepoint')
FUNDER, FUNDEE = 0, 1
LAST = RevocationStore.START_INDEX


class Side:
    """What one side told of itself at the opening."""

    def __init__(self, points, dust_limit, to_self_delay):
        self.points = points
        self.dust_limit = dust_limit
        self.to_self_delay = to_self_delay


class Ledger:
    """What keys have done over all restarts. For the checks alone: nothing is read from it to make a transaction."""

    def __init__(self):
        self.signed = {}        # number of the peer's commitment -> what was signed, each (point, view, txid)
        self.accepted = {}      # number of the own commitment -> txid, for each that the peer's signature fits
        self.revealed = set()   # numbers of own secrets that were given out
        self.secrets = {}       # number of the peer's commitment -> its secret
        self.closes = set()     # txids of the closing transactions that were signed
        self.signatures = 0     # how many were made, with those of HTLCs
        self.verified = 0
        self.trimmed = 0        # HTLCs without an output, over all commitments that were made

    def signs_once(self):
        """Whether each number of the peer's commitments was signed with one point and one view alone."""
        return all(what == several[0] for several in self.signed.values() for what in several)


def flat(view):
    """A view as a value that can be compared."""
    return (view.funder_msat, view.fundee_msat, view.feerate_per_kw,
            tuple((int(h.owner), h.id, h.amount_msat, bytes(h.payment_hash), h.cltv_expiry) for h in view.htlcs))


def trims(received, amount_msat, dust_limit, feerate):
    """Whether an HTLC has no output in the commitment of a side that receives or offers it (BOLT 3)."""
    limit = lnutil.received_htlc_trim_threshold_sat if received else lnutil.offered_htlc_trim_threshold_sat
    return amount_msat // 1000 < limit(dust_limit_sat=dust_limit, feerate=feerate)


class Keys:
    """The secrets of one channel, and what both sides agreed to."""

    def __init__(self, role, seed, dust_limit, to_self_delay, ledger):
        self.role = role
        self.ledger = ledger
        self.seed = sha256(seed + b'commitments')
        self.priv = {name: ecc.ECPrivkey(sha256(seed + name.encode())) for name in POINTS}
        self.own = Side({n: k.get_public_key_bytes(compressed=True) for n, k in self.priv.items()},
                        dust_limit, to_self_delay)
        self.peer = None
        self.funding_sat = None
        self.outpoint = None        # (txid as displayed, index)

    def learn_terms(self, raw):
        """The peer's open_channel or accept_channel."""
        name, m = decode_msg(raw)
        self.peer = Side({n: m[n] for n in POINTS}, m['dust_limit_satoshis'], m['to_self_delay'])
        if name == 'open_channel':
            self.funding_sat = m['funding_satoshis']

    def learn_funding(self, txid, index):
        self.outpoint = (txid, index)

    def funding_address(self):
        script = lnutil.funding_output_script_from_keys(self.own.points['funding_pubkey'],
                                                        self.peer.points['funding_pubkey'])
        return bitcoin.redeem_script_to_address('p2wsh', script)

    # ---- secrets of commitments

    def secret(self, number):
        return lnutil.get_per_commitment_secret_from_seed(self.seed, LAST - number)

    def point(self, number):
        return lnutil.secret_to_pubkey(int.from_bytes(self.secret(number), 'big'))

    def reveal(self, number):
        self.ledger.revealed.add(number)
        return self.secret(number)

    def secret_fits(self, number, secret, point):
        scalar = int.from_bytes(secret, 'big')
        if not 0 < scalar < ecc.CURVE_ORDER or lnutil.secret_to_pubkey(scalar) != point:
            return False
        self.ledger.secrets[number] = secret
        return True

    # ---- transactions

    def commitment(self, is_own, number, point, view):
        """A side's commitment, and its untrimmed HTLCs as (output, HTLC, its transaction), in order of outputs."""
        this, other = (self.own, self.peer) if is_own else (self.peer, self.own)
        role = self.role if is_own else 1 - self.role
        balance = (view.funder_msat, view.fundee_msat)
        revocation = lnutil.derive_blinded_pubkey(other.points['revocation_basepoint'], point)
        delayed = lnutil.derive_pubkey(this.points['delayed_payment_basepoint'], point)
        kept = self.untrimmed(role, this, other, point, revocation, view)
        payment = {self.role: self.own.points['payment_basepoint'],
                   1 - self.role: self.peer.points['payment_basepoint']}
        tx = lnutil.make_commitment(
            ctn=number,
            local_funding_pubkey=this.points['funding_pubkey'],
            remote_funding_pubkey=other.points['funding_pubkey'],
            remote_payment_pubkey=other.points['payment_basepoint'],
            funder_payment_basepoint=payment[FUNDER],
            fundee_payment_basepoint=payment[FUNDEE],
            revocation_pubkey=revocation,
            delayed_pubkey=delayed,
            to_self_delay=other.to_self_delay,
            funding_txid=self.outpoint[0],
            funding_pos=self.outpoint[1],
            funding_sat=self.funding_sat,
            local_amount=balance[role],
            remote_amount=balance[1 - role],
            dust_limit_sat=this.dust_limit,
            fees_per_participant=lnutil.calc_fees_for_commitment_tx(
                num_htlcs=len(kept), feerate=view.feerate_per_kw, is_local_initiator=role == FUNDER),
            htlcs=[lnutil.ScriptHtlc(script, h) for _, script, h in kept])
        return tx, self.second_stage(tx, kept, view.feerate_per_kw, revocation, delayed, other.to_self_delay)

    def untrimmed(self, role, this, other, point, revocation, view):
        """The HTLCs with an output in a side's commitment: (whether the side receives it, script, HTLC)."""
        this_htlc = lnutil.derive_pubkey(this.points['htlc_basepoint'], point)
        other_htlc = lnutil.derive_pubkey(other.points['htlc_basepoint'], point)
        kept = []
        for h in view.htlcs:
            received = int(h.owner) != role
            if trims(received, h.amount_msat, this.dust_limit, view.feerate_per_kw):
                self.ledger.trimmed += 1
                continue
            kept.append((received, lnutil.make_htlc_output_witness_script(
                is_received_htlc=received, remote_revocation_pubkey=revocation, remote_htlc_pubkey=other_htlc,
                local_htlc_pubkey=this_htlc, payment_hash=h.payment_hash, cltv_expiry=h.cltv_expiry), h))
        return kept

    @staticmethod
    def second_stage(tx, kept, feerate, revocation, delayed, to_self_delay):
        """Each HTLC's output and its own transaction. Twins of one script stand in order of their expiry."""
        places = []
        free = set(range(len(tx.outputs())))
        for received, script, h in sorted(kept, key=lambda k: k[2].cltv_expiry):
            address = bitcoin.redeem_script_to_address('p2wsh', script.hex())
            place = min(i for i in tx.get_output_idxs_from_address(address)
                        if i in free and tx.outputs()[i].value == h.amount_msat // 1000)
            free.discard(place)
            _, output = lnutil.make_htlc_tx_output(
                amount_msat=h.amount_msat, local_feerate=feerate, revocationpubkey=revocation,
                local_delayedpubkey=delayed, success=received, to_self_delay=to_self_delay)
            inputs = lnutil.make_htlc_tx_inputs(
                tx.txid(), place, amount_msat=h.amount_msat, witness_script=script.hex())
            places.append((place, h, lnutil.make_htlc_tx(
                cltv_expiry=0 if received else h.cltv_expiry, inputs=inputs, output=output)))
        return sorted(places, key=lambda p: p[0])

    def closing_tx(self, closing, leaves_out_peer=False):
        """The closing transaction. An output below the own dust limit is left out; the peer may leave its own out."""
        fee_msat = closing.fee_satoshis * 1000
        _, outputs = lnutil.make_commitment_outputs(
            fees_per_participant={LOCAL: fee_msat if self.role == FUNDER else 0,
                                  REMOTE: fee_msat if self.role == FUNDEE else 0},
            local_amount_msat=closing.own_msat,
            remote_amount_msat=0 if leaves_out_peer else closing.peer_msat,
            local_script=closing.own_scriptpubkey.hex(), remote_script=closing.peer_scriptpubkey.hex(),
            htlcs=[], dust_limit_sat=self.own.dust_limit)
        return lnutil.make_closing_tx(
            self.own.points['funding_pubkey'], self.peer.points['funding_pubkey'],
            funding_txid=self.outpoint[0], funding_pos=self.outpoint[1], funding_sat=self.funding_sat, outputs=outputs)

    # ---- signatures

    def sign_tx(self, tx, priv):
        self.ledger.signatures += 1
        sig = bfh(tx.sign_txin(0, priv.get_secret_bytes()))
        return ecc.sig_string_from_der_sig(sig[:-1])

    def verify_tx(self, tx, pubkey, sig):
        self.ledger.verified += 1
        return ecc.verify_signature(pubkey, sig, sha256d(bfh(tx.serialize_preimage(0))))

    def signatures(self, number, point, view):
        """Over the peer's commitment, then over each HTLC's transaction: 64 bytes each."""
        tx, places = self.commitment(False, number, point, view)
        self.ledger.signed.setdefault(number, []).append((point, flat(view), tx.txid()))
        secret = lnutil.derive_privkey(int.from_bytes(self.priv['htlc_basepoint'].get_secret_bytes(), 'big'), point)
        priv = ecc.ECPrivkey(secret.to_bytes(32, 'big'))
        return b''.join([self.sign_tx(tx, self.priv['funding_pubkey'])]
                        + [self.sign_tx(htlc_tx, priv) for _, _, htlc_tx in places])

    def accepts(self, number, view, sig, htlc_sigs):
        """Whether these are the peer's signatures over the own commitment of this number."""
        if view.funder_msat < self.commitment_fee_msat(view):
            return False        # the link doesn't look at that: the peer's adds and fees have to be afforded
        point = self.point(number)
        tx, places = self.commitment(True, number, point, view)
        if len(htlc_sigs) != len(places) or not self.verify_tx(tx, self.peer.points['funding_pubkey'], sig):
            return False
        pubkey = lnutil.derive_pubkey(self.peer.points['htlc_basepoint'], point)
        good = all([self.verify_tx(htlc_tx, pubkey, s) for (_, _, htlc_tx), s in zip(places, htlc_sigs)])
        if good:
            self.ledger.accepted[number] = tx.txid()
        return good

    def commitment_fee_msat(self, view):
        """The fee of the own commitment, without that of HTLCs: the least that the funder has to pay for it."""
        return lnutil.calc_fees_for_commitment_tx(
            num_htlcs=0, feerate=view.feerate_per_kw, is_local_initiator=True)[LOCAL]

    def sign_close(self, closing):
        tx = self.closing_tx(closing)
        self.ledger.closes.add(tx.txid())
        return self.sign_tx(tx, self.priv['funding_pubkey'])

    def accepts_close(self, closing, sig):
        """The closing transaction that the peer has signed, or None."""
        for leaves_out_peer in (False, True):
            tx = self.closing_tx(closing, leaves_out_peer)
            if self.verify_tx(tx, self.peer.points['funding_pubkey'], sig):
                return tx
        return None

    # ---- for the chain

    def complete(self, tx, sig):
        """A transaction that spends the funding, with both signatures, as it would be broadcast."""
        own, peer = self.own.points['funding_pubkey'], self.peer.points['funding_pubkey']
        tx.sign({own.hex(): (self.priv['funding_pubkey'].get_secret_bytes(), True)})
        tx.add_signature_to_txin(txin_idx=0, signing_pubkey=peer.hex(),
                                 sig=(ecc.der_sig_from_sig_string(sig) + b'\x01').hex())
        assert tx.is_complete()
        return tx

    def penalty_fits(self, secret, point):
        """Whether a revoked secret gives the key that the outputs of that commitment name."""
        priv = lnutil.derive_blinded_privkey(self.priv['revocation_basepoint'].get_secret_bytes(), secret)
        pub = lnutil.derive_blinded_pubkey(self.own.points['revocation_basepoint'], point)
        return ecc.ECPrivkey(priv).get_public_key_bytes(compressed=True) == pub

"""Cases by name, each on a new channel, with our side as funder and as fundee: opening, payments, lost connections."""
import dataclasses
import os

import electrum_side as el
import lnlink
from electrum.lnchannel import ChannelState
from electrum.lnmsg import encode_msg
from electrum.lnonion import OnionFailureCode, OnionRoutingFailure, decode_onion_error
from electrum.lnutil import LOCAL, REMOTE
from keys import FUNDEE, FUNDER, Keys, Ledger
from session import Session

CASES = {}


def case(f):
    CASES[f.__name__] = f
    return f


async def ready(role, **options):
    """A channel that both ends hold as open."""
    s = Session(role, **options)
    await s.open()
    assert s.chan is not None, (s.host.refusals, s.records.complaints())
    await s.confirm()
    assert s.host.link.look().status == lnlink.Status.READY
    assert s.chan.get_state() == ChannelState.OPEN
    return s


def settled(s, by_us, by_electrum):
    """So many payments of either side were made, and nothing is live."""
    assert s.results == {i: 'fulfilled' for i in range(by_us)}, s.results
    assert sorted(s.worker.fulfilled) == list(range(by_electrum)), s.worker.fulfilled
    assert s.host.link.look().live_htlcs == 0
    s.check_quiet()


def unhurt(s):
    """Nobody refused anything, and Electrum found nothing wrong."""
    assert not s.host.refusals, s.host.refusals
    assert not s.records.complaints(), s.records.complaints()[:3]
    assert not s.worker.force_closing


def restart(s, who):
    """Comes up again without a connection: ours, electrum, both or neither."""
    if who in ('ours', 'both'):
        s.restart()
    if who in ('electrum', 'both'):
        s.restart_electrum()


def closed_by_electrum_alone(s):
    """Electrum has closed by a transaction that our host signed too, its last message was lost: the chain tells us."""
    assert s.chan.get_state() == ChannelState.CLOSING and not s.chan.should_try_to_reestablish_peer()
    assert s.host.link.look().status == lnlink.Status.SHUT
    (name, tx), = s.broadcast()
    assert name == 'closing' and tx.is_complete()
    assert tx.txid() in s.ledger.closes, 'Electrum closed by what our host never signed'
    assert not s.worker.force_closing
    s.check_always()
    s.note = 'stays shut; the chain has a close that we signed'


def speaks_last(role):
    """Values by which Electrum's is the last closing_signed: it agrees with our first fee, or with our answer."""
    if role == FUNDER:
        return dict(el_test_shutdown_fee=500)
    return dict(closing_fee_satoshis=800, min_closing_fee_satoshis=800)


async def close(s, by_us, quiet=1.6):
    """A close, until both have the transaction; it has to be one at both ends."""
    if by_us:
        assert s.shut_down() == 0
    else:
        s.electrum_closes()
    await s.settle(quiet)
    closed(s)
    return s


def closed(s):
    """Both ends have closed by one transaction, whose fee our host knows."""
    assert s.host.closed is not None, (s.host.link.look(), s.host.refusals, s.trace[-6:])
    assert s.host.link.look().status == lnlink.Status.CLOSED
    assert s.chan.get_state() == ChannelState.CLOSING, s.chan.get_state()
    (name, tx), = s.broadcast()
    assert name == 'closing' and tx.is_complete()
    assert tx.txid() == s.host.closing_tx.txid(), 'the closing transactions differ'
    assert s.values['min_closing_fee_satoshis'] <= s.host.closed <= s.values['max_closing_fee_satoshis']
    assert not s.worker.force_closing
    s.check_always()
    s.note = 'closing fee %d' % s.host.closed


# ---- keys, opening and payments

@case
async def keys_sign_and_verify(role):
    """No link and no Electrum: what one end's keys sign, the other's verify, and nothing else."""
    s = Session(role)
    ends = [Keys(r, os.urandom(32), dust, delay, Ledger()) for r, dust, delay in ((FUNDER, 546, 144), (FUNDEE, 354, 6))]
    for own, peer in (ends, ends[::-1]):
        own.peer, own.funding_sat = peer.own, s.funding_sat
        own.learn_funding(os.urandom(32).hex() if own is ends[0] else ends[0].outpoint[0], 1)
    htlcs = tuple(lnlink.Htlc(lnlink.Role(owner), i, amount, os.urandom(32), 1100 + i)
                  for owner in (FUNDER, FUNDEE) for i, amount in enumerate((300_000, 1_000_000, 2_000_000, 3_000_001)))
    view = lnlink.View(500_000_000, 400_000_000, 1000, htlcs)
    signer, judge = ends[role], ends[1 - role]
    signed = signer.signatures(7, judge.point(7), view)
    first, *rest = [signed[i:i + 64] for i in range(0, len(signed), 64)]
    assert len(rest) < len(htlcs) and judge.accepts(7, view, first, rest)
    assert not judge.accepts(8, view, first, rest) and not judge.accepts(7, view, first, rest[::-1])
    assert not judge.accepts(7, dataclasses.replace(view, feerate_per_kw=1001), first, rest)
    assert signer.secret_fits(7, judge.reveal(7), judge.point(7))
    assert not signer.secret_fits(7, judge.reveal(8), judge.point(7))
    assert signer.penalty_fits(judge.secret(7), judge.point(7))
    return s


@case
async def opens(role):
    """An opening with the channel type static_remotekey; either is the first to say that it is ready."""
    for electrum_first in (True, False):
        s = Session(role)
        await s.open()
        await s.confirm(electrum_first)
        assert s.init_verdict == 0 and s.init_verdict_of_none == 9 and s.chain_verdict == 0
        assert s.host.link.look().status == lnlink.Status.READY and s.chan.get_state() == ChannelState.OPEN
        s.check_quiet()
        unhurt(s)
        if electrum_first:
            await s.close_down()
    return s


@case
async def pays_both_ways(role):
    s = await ready(role)
    for amount in (50_000_000, 1_234_567, 7_000_001):
        s.electrum_pays(amount)
        await s.settle()
        s.we_pay(amount // 2)
        await s.settle()
        s.check_quiet()
    settled(s, 3, 3)
    unhurt(s)
    return s


@case
async def pays_across(role):
    """Both offer at once, several times, before either has an answer."""
    s = await ready(role)
    for amount in (3_000_000, 4_000_000, 5_000_000):
        s.electrum_pays(amount)
        s.we_pay(amount)
        if amount == 4_000_000:
            await s.settle(0.01)
    await s.settle()
    settled(s, 3, 3)
    unhurt(s)
    return s


@case
async def many_at_once(role):
    """Several each way at once, among them dust, both thresholds, and twins that differ in their expiry alone."""
    s = await ready(role)
    s.hold()
    for amount in (600_000, 1_000, 546_000, 1_208_999, 1_209_000, 1_248_999, 1_249_000, 40_000_000):
        s.electrum_pays(amount)
        s.we_pay(amount, sign=False)
    twins = s.worker.expect(3_000_000)
    for expiry in (el.HEIGHT + 170, el.HEIGHT + 160, el.HEIGHT + 165):
        s.we_pay(3_000_000, sign=False, expiry=expiry, twin_of=twins)
    s.host.sign()
    await s.settle()
    assert s.host.link.look().live_htlcs == 19
    s.check_quiet()
    s.release()
    await s.settle()
    settled(s, 11, 8)
    unhurt(s)
    assert s.ledger.trimmed > 0
    return s


@case
async def pays_dust_alone(role):
    """HTLCs that have no output in either commitment: a signature without any for HTLCs."""
    s = await ready(role)
    s.electrum_pays(100_000)
    s.we_pay(90_000)
    await s.settle()
    settled(s, 1, 1)
    unhurt(s)
    return await close(s, by_us=False)


@case
async def fails_both_ways(role):
    """A payment that nobody knows: each reads the other's failure."""
    s = await ready(role)
    s.electrum_pays(5_000_000, 'fail')
    s.we_pay(6_000_000, known=False)
    await s.settle()
    assert s.results == {0: 'INCORRECT_OR_UNKNOWN_PAYMENT_DETAILS'}, s.results
    assert s.received == {0: 'failed'} and len(s.worker.failed) == 1
    _, reason, _ = s.worker.failed[0]
    failure, hop = decode_onion_error(reason, [s.node_id], s.chan.onion_keys[0])
    assert hop == 0 and failure.code == OnionFailureCode.INCORRECT_OR_UNKNOWN_PAYMENT_DETAILS
    s.check_quiet()
    unhurt(s)
    return s


@case
async def malformed_by_us(role):
    s = await ready(role)
    s.electrum_pays(5_000_000, 'malformed')
    await s.settle()
    assert s.received == {0: 'malformed'} and len(s.worker.failed) == 1
    s.check_quiet()
    unhurt(s)
    return s


@case
async def malformed_by_electrum(role):
    """By Electrum's fail_malformed_htlc, called by hand: of itself Electrum 4.3.4 never gets there."""
    s = await ready(role)
    s.worker.enable_htlc_settle = False
    s.we_pay(5_000_000)
    await s.settle()
    s.chan.unfulfilled_htlcs.pop(0)
    s.peer.fail_malformed_htlc(chan=s.chan, htlc_id=0, reason=OnionRoutingFailure(
        code=OnionFailureCode.INVALID_ONION_HMAC, data=os.urandom(32)))
    await s.settle()
    assert s.results == {0: 'malformed'}, s.results
    s.check_quiet()
    unhurt(s)
    return s


@case
async def fee_updates(role):
    s = await ready(role)
    s.electrum_pays(30_000_000)
    for feerate in (2500, 800, 6000, 2000):
        await s.set_fee(feerate)
        s.we_pay(2_000_000)
        await s.settle()
        assert s.host.link.view(lnlink.Commitment.OWN).feerate_per_kw == feerate
        s.check_quiet()
    settled(s, 4, 1)
    unhurt(s)
    return s


@case
async def fee_and_dust(role):
    """A feerate that turns live HTLCs to dust, and back."""
    s = await ready(role)
    s.hold()
    s.electrum_pays(3_000_000)
    s.we_pay(3_000_000)
    await s.settle()
    for feerate in (5000, 900):
        await s.set_fee(feerate)
        await s.settle()
        s.check_quiet()
    s.release()
    await s.settle()
    settled(s, 1, 1)
    unhurt(s)
    assert s.ledger.trimmed > 0
    return s


# ---- lost connections and restarts

@case
async def comes_back(role):
    """Lost connections with nothing under way, before and after the first commitment; with our restarts, too."""
    s = Session(role)
    await s.open()
    for restarts in (False, True):
        await s.lose()
        if restarts:
            s.restart()
        await s.meet_again()
        await s.settle()
        s.check_quiet()
    await s.confirm()
    for restarts in (False, True):
        await s.lose()
        if restarts:
            s.restart()
        await s.meet_again()
        await s.settle()
        assert s.host.link.look().status == lnlink.Status.READY
        s.electrum_pays(30_000_000)
        await s.settle()
        s.we_pay(10_000_000)
        await s.settle()
    settled(s, 2, 2)
    unhurt(s)
    return s


@case
async def comes_back_half_ready(role):
    """Lost after one has said channel_ready: it is said again."""
    for first in ('confirm_us', 'confirm_electrum'):
        s = Session(role)
        await s.open()
        getattr(s, first)()
        await s.lose()
        await s.meet_again()
        await s.settle()
        getattr(s, 'confirm_electrum' if first == 'confirm_us' else 'confirm_us')()
        await s.settle()
        assert s.host.link.look().status == lnlink.Status.READY and s.chan.get_state() == ChannelState.OPEN
        s.we_pay(1_000_000)
        await s.settle()
        settled(s, 1, 0)
        unhurt(s)
        if first == 'confirm_us':
            await s.close_down()
    return s


@case
async def comes_back_in_a_dance(role):
    """Lost with adds and signatures of both under way, all or a tail, with restarts of neither, either or both."""
    s = await ready(role)
    paid = 0
    for restarts in ('neither', 'ours', 'electrum', 'both'):
        for to_us, to_electrum in ((0, 0), (1, 0), (0, 1), (2, 1), (1, 2), (2, 3)):
            s.electrum_pays(2_000_000)
            s.we_pay(1_500_000)
            paid += 1
            await s.lose_tail(to_us, to_electrum)
            restart(s, restarts)
            await s.meet_again()
            await s.settle()
            s.check_quiet()
    assert len(s.worker.fulfilled) == paid, (s.worker.fulfilled, paid)
    assert set(s.results.values()) == {'fulfilled'} and s.host.link.look().live_htlcs == 0
    unhurt(s)
    return s


@case
async def held_over_restarts(role):
    """HTLCs that both hold are answered after restarts of both."""
    s = await ready(role)
    s.hold()
    s.electrum_pays(20_000_000)
    s.we_pay(10_000_000)
    await s.settle()
    assert len(s.held) == 1
    await s.lose()
    restart(s, 'both')
    await s.meet_again()
    await s.settle()
    assert s.host.link.look().live_htlcs == 2
    s.check_quiet()
    s.release()
    await s.settle()
    settled(s, 1, 1)
    unhurt(s)
    return s


@case
async def own_adds_forgotten(role):
    """An own add that no signature covered is gone after a loss; its id is used again."""
    s = await ready(role)
    s.we_pay(5_000_000, sign=False)
    assert s.host.link.look().next_htlc_id == 1
    await s.lose()
    assert s.host.link.look().next_htlc_id == 0 and not s.sent
    await s.meet_again()
    await s.settle()
    s.we_pay(6_000_000)
    await s.settle()
    settled(s, 1, 0)
    unhurt(s)
    return s


@case
async def own_removals_given_again(role):
    """A removal that no signature covered is gone after a loss, and so after a restart: the host gives it again."""
    s = await ready(role)
    for id_, restarts in enumerate(('neither', 'ours')):
        s.hold()
        s.electrum_pays(5_000_000)
        await s.settle()
        s.release(sign=False)
        assert s.host.link.look().removed_htlcs == (id_,)
        await s.lose()
        assert s.host.link.look().removed_htlcs == ()
        restart(s, restarts)
        await s.meet_again()
        await s.settle()
        settled(s, 0, id_ + 1)
    unhurt(s)
    return s


async def with_history(role):
    """A channel after payments both ways, and the records of both from before the last ones."""
    s = await ready(role)
    s.electrum_pays(20_000_000)
    s.we_pay(10_000_000)
    await s.settle()
    old = s.host.disk.copy(), s.worker.record_of(s.chan)
    s.electrum_pays(30_000_000)
    s.we_pay(15_000_000)
    await s.settle()
    s.check_quiet()
    return s, old


def lost_data(s):
    """Whose data is lost, by what the refusal and a summary say; our host sees it after a restart, too."""
    assert ('channel_reestablish', 34) in s.host.refusals
    told, seen = s.host.lost_data, s.host.link.look()
    assert (seen.status, seen.value, seen.lost_data) == (lnlink.Status.FAILED, 34, told)
    s.host.restart()
    assert s.host.link.look().lost_data == told
    return told


@case
async def old_record_of_ours(role):
    """We come up with an old record: 34, our data is lost. Our host publishes nothing, Electrum closes."""
    s, (old, _) = await with_history(role)
    newest = s.chan.get_latest_commitment(LOCAL).txid()
    await s.lose()
    s.restart(old)
    await s.meet_again()
    await s.settle()
    assert lost_data(s) == lnlink.LostData.OWN
    assert s.host.disk.signatures.number in s.ledger.revealed       # so it may not be published
    assert [(why, tx.txid()) for why, tx in s.broadcast()] == [('force-close', newest)]
    assert s.chan.get_oldest_unrevoked_ctn(LOCAL) == s.chan.get_latest_ctn(LOCAL)
    s.note = 'commitment %d of %d on disk' % (s.host.disk.signatures.number, s.chan.get_latest_ctn(REMOTE))
    return s


@case
async def old_record_of_electrum(role):
    """Electrum comes up with an old record: 34, its data is lost. It publishes nothing; our host can."""
    s, (_, old) = await with_history(role)
    newest = s.chan.get_latest_commitment(REMOTE).txid()
    await s.lose()
    s.restart_electrum(old)
    await s.meet_again()
    await s.settle()
    assert lost_data(s) == lnlink.LostData.PEER
    assert not s.broadcast() and s.chan.get_state() == ChannelState.WE_ARE_TOXIC, s.chan.get_state()
    assert s.host.disk.signatures.number not in s.ledger.revealed
    assert s.host.own_commitment().txid() == newest
    return s


@case
async def has_what_the_chain_needs(role):
    """With HTLCs live: the own commitment with both signatures and Electrum's txid; the keys of all revoked ones."""
    s = await ready(role)
    s.electrum_pays(20_000_000)
    await s.settle()
    s.hold()
    s.electrum_pays(20_000_000)
    s.we_pay(10_000_000)
    await s.settle()
    s.check_quiet()
    tx = s.host.own_commitment()
    assert len(tx.outputs()) == 4 and tx.txid() == s.chan.get_latest_commitment(REMOTE).txid()
    assert len(s.host.disk.signatures.htlc_signatures) == 2
    await s.lose()
    s.restart()
    assert s.host.own_commitment().txid() == tx.txid()
    s.note = 'own commitment %d, %d revoked of the peer' % (s.host.disk.signatures.number, len(s.host.disk.secrets))
    return s


@case
async def error_of_electrum(role):
    """Electrum fails the channel: our end is failed by 37 and takes no more, over a restart too; the host can close."""
    s = await ready(role)
    s.we_pay(10_000_000)
    await s.settle()
    s.host.take(encode_msg('error', channel_id=s.chan.channel_id, data=b'gone', len=4))
    assert ('error', 37) in s.host.refusals
    assert s.host.command(lnlink.Fee(2000)) == 37
    await s.lose()
    s.restart()
    seen = s.host.link.look()
    assert seen.status == lnlink.Status.FAILED and seen.value == 37
    assert s.host.own_commitment().txid() == s.chan.get_latest_commitment(REMOTE).txid()
    return s

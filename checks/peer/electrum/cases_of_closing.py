"""Cases of the mutual close."""
import lnlink
from cases import case, close, closed, closed_by_electrum_alone, ready, restart, speaks_last, unhurt
from electrum.lnchannel import ChannelState
from electrum.lnutil import REMOTE
from keys import FUNDEE


@case
async def closes_by_us(role):
    s = await ready(role)
    s.electrum_pays(30_000_001)
    await s.settle()
    await close(s, by_us=True)
    unhurt(s)
    return s


@case
async def closes_by_electrum(role):
    s = await ready(role)
    s.electrum_pays(30_000_001)
    await s.settle()
    await close(s, by_us=False)
    unhurt(s)
    return s


@case
async def closes_by_both(role):
    """Both say shutdown at once."""
    s = await ready(role)
    assert s.shut_down() == 0
    s.electrum_closes()
    await s.settle(1.6)
    closed(s)
    unhurt(s)
    return s


@case
async def closes_with_htlcs(role):
    """Shutdown while HTLCs of both are live, which are fulfilled first."""
    for by_us in (True, False):
        s = await ready(role)
        s.hold()
        s.electrum_pays(30_000_000)
        s.we_pay(20_000_000)
        await s.settle()
        if by_us:
            assert s.shut_down() == 0
        else:
            s.electrum_closes()
        await s.settle()
        assert s.we_pay(1_000_000) == 43
        assert s.host.refusals.pop() == ('Add', 43)
        s.release()
        await s.settle(1.6)
        closed(s)
        assert s.worker.fulfilled == [0] and s.results == {0: 'fulfilled'}
        unhurt(s)
        if by_us:
            await s.close_down()
    return s


@case
async def closes_with_nothing(role):
    """The fundee has nothing: its output is left out."""
    s = await ready(role, push_msat=0)
    await close(s, by_us=True)
    assert len(s.broadcast()[0][1].outputs()) == 1
    unhurt(s)
    return s


@case
async def closes_with_dust(role):
    """The fundee has 400 satoshi, below both dust limits: its output is left out."""
    s = await ready(role, push_msat=400_000)
    await close(s, by_us=True)
    assert len(s.broadcast()[0][1].outputs()) == 1
    unhurt(s)
    return s


@case
async def closes_with_fees_apart(role):
    """Electrum would pay 300 in 250 to 400, we 700 in 300 to 900: a fee in both ranges is found."""
    s = await ready(role, closing_fee_satoshis=700, min_closing_fee_satoshis=300, max_closing_fee_satoshis=900,
                    el_test_shutdown_fee=300,
                    el_test_shutdown_fee_range={'min_fee_satoshis': 250, 'max_fee_satoshis': 400})
    await close(s, by_us=True)
    assert 300 <= s.host.closed <= 400
    unhurt(s)
    return s


@case
async def closes_without_range(role):
    """Electrum as before fee_range, with a fee that our range has."""
    s = await ready(role, closing_fee_satoshis=700, min_closing_fee_satoshis=300, max_closing_fee_satoshis=900,
                    el_test_shutdown_fee=800, el_test_shutdown_legacy=True)
    await close(s, by_us=True)
    unhurt(s)
    return s


@case
async def cannot_close_outside_range(role):
    """No fee in common: refused 36, our warning makes Electrum disconnect, and each new try ends so. Both stay safe."""
    s = await ready(role, closing_fee_satoshis=700, min_closing_fee_satoshis=600, max_closing_fee_satoshis=900,
                    el_test_shutdown_fee=300, el_test_shutdown_legacy=True)
    assert s.shut_down() == 0
    await s.settle(1.6)
    if s.host.closed is None:
        assert ('closing_signed', 36) in s.host.refusals and s.task.done()
        assert s.host.link.look().status == lnlink.Status.SHUT
        assert s.host.own_commitment().txid() == s.chan.get_latest_commitment(REMOTE).txid()
        s.note = 'refused 36, Electrum disconnects'
    else:
        closed(s)
    return s


@case
async def closes_over_a_break(role):
    """Lost at the first closing_signed, and a restart of ours: the negotiation begins again."""
    for restarts in ('neither', 'ours'):
        s = await ready(role)
        assert s.shut_down() == 0
        await s.settle(1.6, until=lambda: ('E' if role == FUNDEE else 'P', 'closing_signed') in s.trace)
        await s.lose()
        restart(s, restarts)
        await s.meet_again()
        await s.settle(1.6)
        closed(s)
        if restarts == 'neither':
            await s.close_down()
    return s


@case
async def last_closing_signed_lost(role):
    """Electrum has closed, its last closing_signed is lost, and it never reestablishes: our host sees the chain."""
    s = await ready(role, **speaks_last(role))
    s.electrum_closes()
    await s.settle(1.6, until=lambda: s.chan.get_state() == ChannelState.CLOSING)
    await s.lose()
    await s.meet_again()
    await s.settle(1.6)
    closed_by_electrum_alone(s)
    return s

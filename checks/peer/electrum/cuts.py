"""The connection is cut after each message of a dance with adds and a fee, and of a closing, restarts or not."""
import lnlink
from cases import closed, closed_by_electrum_alone, ready, restart, speaks_last, unhurt
from electrum.lnchannel import ChannelState
from electrum.lnutil import LOCAL

RESTARTS = ('neither', 'ours', 'electrum', 'both')


def begin_dance(s):
    """A new feerate and adds of both, one of them dust; all are under way at once."""
    async def steps():
        s.electrum_pays(20_000_000)
        s.we_pay(10_000_000, sign=False)
        s.we_pay(300_000)
        await s.set_fee(2500)
        s.electrum_pays(200_000)
        await s.settle()
    return steps()


def begin_close(by_us):
    async def steps(s):
        if by_us:
            assert s.shut_down() == 0
        else:
            s.electrum_closes()
        await s.settle(1.6)
    return steps


async def length_of(role, steps, **options):
    """How many messages are delivered where nothing is cut."""
    s = await ready(role, **options)
    before = s.delivered
    await steps(s)
    await s.close_down()
    return s.delivered - before


async def cut_once(role, steps, after, who, **options):
    """The steps, with a cut after so many messages."""
    s = await ready(role, **options)

    async def cut():
        await s.lose()
        restart(s, who)
        await s.meet_again()

    s.cut_at = s.delivered + after
    s.cut = cut
    await steps(s)
    assert s.reconnections == 1
    return s


def dance_ends_well(s):
    """What was signed for is settled, what wasn't is forgotten, and both ends tell the same."""
    assert sorted(s.worker.fulfilled) == [0, 1], s.worker.fulfilled
    assert set(s.results) == set(s.sent) and set(s.results.values()) <= {'fulfilled'}, (s.results, s.sent)
    assert len(s.worker.paid) >= len(s.results)
    assert s.host.link.look().live_htlcs == 0
    s.check_quiet()
    unhurt(s)


async def cut_dance(role, who):
    """All cuts of the dance, for one kind of restart."""
    count = await length_of(role, begin_dance)
    for after in range(1, count + 1):
        s = await cut_once(role, begin_dance, after, who)
        dance_ends_well(s)
        s.we_pay(1_000_000)
        await s.settle()
        dance_ends_well(s)
        await s.close_down()
    s.note = '%d cuts' % count
    return s


async def cut_close(role, who, by_us):
    """All cuts of a closing, for one kind of restart. The first to shut down is the last to sign."""
    alone = 0
    steps = begin_close(by_us)
    options = {} if by_us else speaks_last(role)
    count = await length_of(role, steps, **options)
    for after in range(1, count + 1):
        s = await cut_once(role, steps, after, who, **options)
        if s.host.closed is None and s.chan.get_state() != ChannelState.CLOSING:
            # neither had said anything that the other heard: it is said again
            if by_us:
                s.shut_down()
            else:
                s.electrum_closes()
            await s.settle(1.6)
        if s.host.closed is None:
            closed_by_electrum_alone(s)
            alone += 1
        else:
            closed(s)
        await s.close_down()
    s.note = '%d cuts, Electrum alone has the close after %d' % (count, alone)
    return s


async def every_old_record(role):
    """We come up with each record of a dance: it goes on, or is refused 34 and nobody publishes what is revoked."""
    back = refused = at = 0
    while at < 200:
        s = await ready(role)
        s.host.disk.older = []
        s.electrum_pays(20_000_000)
        s.we_pay(10_000_000)
        await s.settle()
        older = s.host.disk.older
        if at == len(older):
            break
        newest = s.chan.get_latest_commitment(LOCAL).txid()
        await s.lose()
        s.restart(older[at])
        await s.meet_again()
        await s.settle()
        lost = s.host.disk.signatures.number in s.ledger.revealed
        assert (s.host.lost_data == lnlink.LostData.OWN) == lost, 'the link is wrong about whether its host may publish'
        if s.host.refusals:
            assert s.host.refusals == [('channel_reestablish', 34)], s.host.refusals
            assert [tx.txid() for _, tx in s.broadcast()] in ([], [newest])
            refused += 1
        else:
            s.check_quiet()
            back += 1
        assert s.ledger.signs_once() and not (lost and not s.host.refusals)
        await s.close_down()
        at += 1
    s.note = '%d records: %d go on, %d are refused' % (at, back, refused)
    return s


CUTS = {'every_old_record': every_old_record}
for kind in RESTARTS:
    CUTS['cut_dance_' + kind] = lambda role, who=kind: cut_dance(role, who)
    CUTS['cut_close_by_us_' + kind] = lambda role, who=kind: cut_close(role, who, True)
    CUTS['cut_close_by_electrum_' + kind] = lambda role, who=kind: cut_close(role, who, False)

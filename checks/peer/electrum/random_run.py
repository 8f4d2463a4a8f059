"""A random run: payments, fees, losses of the tail of what is under way, restarts, crashes, then a close."""
import random

import lnlink
from cases import closed, closed_by_electrum_alone, restart, unhurt
from electrum.lnchannel import ChannelState
from electrum.lnutil import LOCAL
from host import Crash
from keys import FUNDER
from session import Session

WHO = ('neither', 'neither', 'ours', 'electrum', 'both')


class RandomRun:
    """One channel from its opening to its close; every choice is by chance."""

    def __init__(self, role, seed):
        self.chance = random.Random('choices of ' + str(seed))
        self.role = role
        funding = self.chance.randrange(300_000, 3_000_000)
        self.s = Session(
            role, funding_sat=funding, push_msat=funding * self.chance.randrange(250, 750),
            feerate=self.chance.randrange(253, 3000), dust_limit_satoshis=self.chance.choice((354, 546, 1000)),
            max_accepted_htlcs=self.chance.choice((5, 12, 30)), to_self_delay=self.chance.choice((6, 144, 2016)),
            el_lightning_to_self_delay=self.chance.choice((144, 1008)))
        self.quiet_moments = 0
        self.paid_by_electrum = 0

    async def run(self):
        s = self.s
        await s.open()
        await s.confirm(self.chance.random() < 0.5)
        for _ in range(self.chance.randrange(20, 60)):
            step = self.chance.choice((
                self.electrum_pays, self.electrum_pays, self.electrum_pays, self.we_pay, self.we_pay, self.we_pay,
                self.fee, self.wait, self.wait, self.quiet, self.lose, self.crash_soon, self.hold))
            try:
                await step()
            except Crash:
                await s.crash()
            s.check_always()
        s.host.crash_after = None
        await self.release()
        await self.quiet(checks_all=True)
        unhurt(s)
        await self.close()
        s.note = '%d quiet moments, %d paid by Electrum, %d by us; %s' % (
            self.quiet_moments, len(s.worker.fulfilled), list(s.results.values()).count('fulfilled'), s.note)
        return s

    def amount(self):
        """Dust, near a threshold, or up to a twentieth of the channel."""
        return self.chance.choice((
            self.chance.randrange(1, 400_000), self.chance.randrange(300_000, 3_000_000),
            self.chance.randrange(1_000_000, self.s.funding_sat * 50)))

    # ---- steps

    async def electrum_pays(self):
        amount = self.amount()
        room = self.s.chan.available_to_spend(LOCAL) - self.s.funding_sat * 60
        if self.s.chan.can_pay(amount) and amount < room:
            self.s.electrum_pays(amount, self.chance.choice(('fulfil', 'fulfil', 'fulfil', 'fail', 'malformed')))
            self.paid_by_electrum += 1

    async def we_pay(self):
        amount = self.amount()
        seen = self.s.host.link.look()
        if seen.connection == lnlink.Connection.CONNECTED and self.s.host.affords(amount_msat=amount):
            number = self.s.we_pay(amount, known=self.chance.random() < 0.8, sign=self.chance.random() < 0.7,
                                   expiry=1000 + self.chance.randrange(150, 400))
            if number:
                assert number == 44, number     # too many at once
                self.s.host.refusals.pop()

    async def fee(self):
        feerate = self.chance.randrange(253, 6000)
        if self.role == FUNDER:
            if feerate != self.s.host.link.view(lnlink.Commitment.TO_SIGN).feerate_per_kw \
                    and self.s.host.affords(feerate=feerate) \
                    and self.s.host.link.look().connection == lnlink.Connection.CONNECTED:
                await self.s.set_fee(feerate)
        elif self.s.chan.available_to_spend(LOCAL) > self.s.funding_sat * 200:
            await self.s.set_fee(feerate)

    async def wait(self):
        await self.s.settle(self.chance.choice((0.003, 0.01, 0.03, 0.15)))

    async def quiet(self, checks_all=False):
        """Nothing is under way any more: both have to tell the same."""
        self.s.host.sign()
        await self.s.settle()
        self.s.check_quiet()
        self.quiet_moments += 1
        if checks_all:
            assert self.s.host.link.look().live_htlcs == 0, self.s.host.link.look()
            assert set(self.s.results) == set(self.s.sent), (self.s.results, set(self.s.sent))
            assert len(self.s.worker.fulfilled) + len(self.s.worker.failed) == self.paid_by_electrum

    async def lose(self):
        await self.s.lose_tail(self.chance.randrange(4), self.chance.randrange(4))
        restart(self.s, self.chance.choice(WHO))
        if self.chance.random() < 0.3:      # and once more, before anything but init has passed
            await self.s.meet_again()
            await self.s.lose_tail(self.chance.randrange(3), self.chance.randrange(3))
            restart(self.s, self.chance.choice(WHO))
        await self.s.meet_again()
        await self.s.settle(self.chance.choice((0.003, 0.05)))

    async def crash_soon(self):
        """After a few items of our line our process is killed: before or after a save, before or after it has sent."""
        self.s.host.crash_after = self.chance.randrange(6)

    async def hold(self):
        if self.s.host.hold:
            await self.release()
        else:
            self.s.hold()

    async def release(self):
        try:
            self.s.release(sign=self.chance.random() < 0.5)
        except Crash:
            await self.s.crash()
            self.s.release()

    # ---- the close

    async def close(self):
        """By either, at times over a break; it ends with one transaction that both have signed."""
        s = self.s
        s.host.crash_after = None
        by_us = self.chance.random() < 0.5
        if by_us:
            assert s.shut_down() == 0
        else:
            s.electrum_closes()
        if self.chance.random() < 0.5:
            for _ in range(self.chance.randrange(4)):
                await s.settle(0.003)
            await s.lose_tail(self.chance.randrange(2), self.chance.randrange(2))
            restart(s, self.chance.choice(WHO))
            await s.meet_again()
        await s.settle(1.6)
        if s.host.closed is None and s.chan.get_state() != ChannelState.CLOSING:
            if by_us:
                s.shut_down()
            else:
                s.electrum_closes()
            await s.settle(1.6)
        if s.host.closed is None:
            closed_by_electrum_alone(s)
        else:
            closed(s)

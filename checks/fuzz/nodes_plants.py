"""Wrong nodes, each of which checks/fuzz/nodes has to find: the library's node, with one thing amiss in what it hands
out or is told. `PLANTS` has them by name."""
from dataclasses import replace

from lnlink import (Added, Batch, GoOn, Hold, Node, NodeEvent, NodeMessage, OnionItem, Record, Refused, Send, Settled,
                    WrapItem)


class WrongNode(Node):
    """Items go through `handed`, which may give others."""

    def __init__(self):
        super().__init__()
        self.stash, self.count = [], 0

    def next(self):
        if self.stash:
            return self.stash.pop(0)
        return self.handed(super().next())

    def inner(self):
        return super().next()

    def handed(self, item):
        return item

    def is_turn(self, every):
        """Whether a thing that comes again and again is done wrong this time."""
        self.count += 1
        return self.count % every == 0


def is_sent(item, typ=None):
    is_send = isinstance(item, NodeMessage) and isinstance(item.item, Send)
    return is_send and (typ is None or item.item.message[:2] == bytes([0, typ]))


class DropsARecord(WrongNode):
    """A batch lacks one of its channels."""

    def handed(self, item):
        return replace(item, saved=item.saved[:-1]) if isinstance(item, Batch) and len(item.saved) > 1 else item


class SavesAnOldRecord(WrongNode):
    """Of a channel's record the one before is saved, at times."""
    olds = {}

    def handed(self, item):
        if not isinstance(item, Batch):
            return item
        saved = []
        for number, data in item.saved:
            record, old = Record.from_saved(data), self.olds.get((id(self), number))
            self.olds[id(self), number] = record.record
            saved.append((number, replace(record, record=old).saved() if old and self.is_turn(7) else data))
        return replace(item, saved=tuple(saved))


class SendsBeforeTheSave(WrongNode):
    """What waits for a batch comes before it."""

    def handed(self, item):
        if not isinstance(item, Batch):
            return item
        super().saved(item.number)
        self.stash = [it for it in [self.inner(), item] if it is not None]
        return self.stash.pop(0)

    def saved(self, batch):
        try:
            super().saved(batch)
        except Refused:
            pass


class LosesAMessage(WrongNode):
    """One of ten revocations isn't handed out."""

    def handed(self, item):
        if is_sent(item, 133) and self.is_turn(10):
            self.sent(item.channel, item.message)
            return self.next()
        return item


class OffersTwice(WrongNode):
    """An add comes twice."""

    def handed(self, item):
        if is_sent(item, 128):
            self.stash.append(item)
        return item


class GoesOnWithWhatIsHeld(WrongNode):
    """What is to be held is forwarded."""

    def verdict(self, channel, event, verdict):
        super().verdict(channel, event, GoOn() if isinstance(verdict, Hold) and self.is_turn(2) else verdict)


class ForgetsAHold(WrongNode):
    """After a load, what was held goes on."""

    def onion(self, payment_hash, onion, found):
        super().onion(payment_hash, onion, found)
        for it in super().held():
            if it.payment_hash == payment_hash and self.is_loaded:
                self.resume(it.channel, it.event, GoOn())

    @classmethod
    def load(cls, settings, records=()):
        node = super().load(settings, records)
        node.is_loaded = bool(list(records))
        return node


class TakesTheOtherVerdict(WrongNode):
    """The verdict of an event is that of the event before."""
    before = GoOn()

    def verdict(self, channel, event, verdict):
        said, self.before = self.before, verdict
        try:
            super().verdict(channel, event, said)
        except Refused:
            self.before = said
            raise


class LeavesASettledUntold(WrongNode):
    """That an own HTLC has ended isn't told."""

    def handed(self, item):
        if isinstance(item, NodeEvent) and isinstance(item.item.event, Settled) and item.item.event.own:
            self.verdict(item.channel, item.item.number, GoOn())
            return self.next()
        return item


class TellsAnEventAgain(WrongNode):
    """An event is told again once it is decided."""

    def handed(self, item):
        self.event = item if isinstance(item, NodeEvent) else None
        return item

    def verdict(self, channel, event, verdict):
        super().verdict(channel, event, verdict)
        if getattr(self, "event", None) and self.is_turn(20):
            self.stash.append(self.event)


class TellsAnotherEvent(WrongNode):
    """An added HTLC is told of by the number of the next event."""

    def handed(self, item):
        if isinstance(item, NodeEvent) and isinstance(item.item.event, Added) and self.is_turn(10):
            return replace(item, item=replace(item.item, number=item.item.number + 1))
        return item


class AsksNoOnion(WrongNode):
    """An onion isn't asked for where it is the tenth."""

    def handed(self, item):
        return self.next() if isinstance(item, OnionItem) and self.is_turn(10) else item


class WrapsAsItsOwn(WrongNode):
    """A failure that came back is told to be the node's own."""

    def handed(self, item):
        return replace(item, came_back=False) if isinstance(item, WrapItem) else item


class AsksLess(WrongNode):
    """It takes a smaller fee than it is set to."""

    @classmethod
    def load(cls, settings, records=()):
        return super().load(replace(settings, fee_base_msat=settings.fee_base_msat // 2), records)


class HearsLateOfALoss(WrongNode):
    """A lost connection isn't heard of, one time in three."""

    def disconnect(self, channel):
        if not self.is_turn(3):
            super().disconnect(channel)


class ListsNoHeld(WrongNode):
    """What is held by the first event isn't listed."""

    def held(self):
        return [it for it in super().held() if it.event]


class TakesAnyBatch(WrongNode):
    """A batch counts as saved by any number."""

    def saved(self, batch):
        try:
            super().saved(batch)
        except Refused:
            pass


class ConnectsBeforeOnions(WrongNode):
    """A connection is taken before the onions are answered that were asked for after a load."""

    def connect(self, channel):
        try:
            super().connect(channel)
        except Refused as refused:
            if refused.number != 80:
                raise


PLANTS = {
    "drops-a-record": DropsARecord,
    "saves-an-old-record": SavesAnOldRecord,
    "sends-before-the-save": SendsBeforeTheSave,
    "loses-a-message": LosesAMessage,
    "offers-twice": OffersTwice,
    "goes-on-with-what-is-held": GoesOnWithWhatIsHeld,
    "forgets-a-hold": ForgetsAHold,
    "takes-the-other-verdict": TakesTheOtherVerdict,
    "leaves-a-settled-untold": LeavesASettledUntold,
    "tells-an-event-again": TellsAnEventAgain,
    "tells-another-event": TellsAnotherEvent,
    "asks-no-onion": AsksNoOnion,
    "wraps-as-its-own": WrapsAsItsOwn,
    "asks-less": AsksLess,
    "hears-late-of-a-loss": HearsLateOfALoss,
    "lists-no-held": ListsNoHeld,
    "takes-any-batch": TakesAnyBatch,
    "connects-before-onions": ConnectsBeforeOnions,
}

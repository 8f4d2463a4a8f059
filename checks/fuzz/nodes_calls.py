"""A node of the library and its model (nodes_model.py), told the same calls, for checks/fuzz/nodes. A call is a name
and its values: it can be made again, of a list. So that fewer calls can be made again too, a number that is None stands
for that of the last item of its kind, and what the host's keys answer is found as the call is made."""
from collections import Counter, defaultdict
from ctypes import byref, c_size_t, create_string_buffer
import os
import sys

sys.path.insert(0, os.path.dirname(os.path.abspath(__file__)))
from lnlink import (Add, Added, Batch, BlankItem, CloseQuestion, Config, Confirm, Fee, Link, NodeEvent, NodeMessage,
                    OpenSpec, OwnSecretQuestion, PointBlank, RevocationBlank, SecretQuestion, Settings, Shutdown, Sign,
                    SignaturesBlank, WrapItem)
import lnlink
from links_model import CHAIN, OWN, Keys, close_signature, decode, point_of, signature, u64
from model import Refused, World
from nodes_model import NodeModel, Wrong

TRUE, LATE, BAD = "true", "late", "bad"  # how a question is answered, or a blank is filled
NONE = Settings(0, 0, 0, bytes(32))


class Differs(Exception):
    """The node and its model tell something else, or what has to hold doesn't."""


def keys_of(label, of_node):
    """The toy keys of a channel's end, at the node or at its peer."""
    return Keys(0, *((2 * label + 1, 2 * label + 2)[::1 if of_node else -1]))


def answer_of(call):
    """What a call answers: its value, or the numbers of its refusal."""
    try:
        return "ok", call()
    except lnlink.Refused as refused:
        detail = [refused.rule] if refused.rule else []
        if refused.lost_data:
            detail = [f"{'own' if refused.lost_data == 1 else 'peer'} data lost"]
        return "refused", refused.number, *detail
    except Refused as refused:
        return "refused", *refused.numbers


class Both:
    COUNTED = "calls items events forwarded restarts refusals settled".split()

    def __init__(self, made):
        self.made, self.calls, self.told = made, [], Counter()
        self.disk = {}  # by label: what was saved, and the model's end then
        self.batch, self.ever, self.offering, self.events = None, defaultdict(set), defaultdict(list), {}
        self.came_in, self.own_count, self.went_out = defaultdict(set), Counter(), defaultdict(set)  # by payment hashes
        self.opened, self.last, self.blanks = {}, {}, {}
        self.node, self.model = made.load(NONE), NodeModel(NONE, self.opened)

    def close(self):
        self.node.close()

    def call(self, name, *values):
        """Makes a call of both, which have to answer the same: that answer."""
        self.calls.append((name, *values))
        self.told["calls"] += 1
        try:
            return getattr(self, name)(*values)
        except (Wrong, AssertionError) as wrong:
            raise Differs(f"{name}: {wrong}") from None

    def same(self, theirs, ours):
        theirs, ours = answer_of(theirs), answer_of(ours)
        if theirs != ours:
            raise Differs(f"{self.calls[-1][0]}: the node answers {theirs}, the model {ours}")
        self.told["refusals"] += theirs[0] == "refused"
        return theirs

    # ---- a node from its beginning

    def load(self, settings, labels):
        """The node is dropped, and comes back of what was saved of these channels."""
        self.node.close()
        if self.calls[1:]:
            self.told["restarts"] += 1
            self.same(self.node.sign, lambda: is_refused(83))
        kept = [self.disk[label] for label in labels if label in self.disk]
        self.batch, self.offering, self.last, self.blanks = None, defaultdict(list), {}, {}
        self.model = NodeModel.load(settings, self.opened, [it for _, it in kept])
        self.node = self.made.load(settings, [saved for saved, _ in kept])
        self.look_at_all()

    def look_at_all(self):
        """Where the node's channels are, and what is held."""
        out = defaultdict(list)
        for number, it in enumerate(self.model.ends):
            if it.stage == "saved":
                self.look(number)
                self.view(number, len(self.calls) % 4)
            for u in it.own:
                if u.get("origin"):
                    out[u["origin"]].append((it, u["id"]))
        for it in self.model.ends:
            World.check_in(it, out)
        self.held()

    def damaged(self, label, kind):
        """Nothing is loaded of a record that is cut, longer, there twice, or has another byte."""
        saved = self.disk[label][0] if label in self.disk else b""
        changed = saved[:-9] + bytes([saved[-9] ^ 1]) + saved[-8:] if saved else b""
        records = {"cut": [saved[:-1]], "longer": [saved + b"\0"], "twice": [saved, saved], "changed": [changed]}[kind]
        return self.same(lambda: self.made.load(NONE, records) and None, lambda: is_refused(70))

    def open(self, label, role, config, opening):
        """A channel that the node opens; or, without an opening, that it accepts."""
        keys = keys_of(label, True)
        first, dust, delay, depth = OWN[role]
        points = [bytes([first + n]) * 33 for n in range(5)]
        whole = Config(*config["limits"], CHAIN, dust, delay, depth, *points, *config["fees"], config["script"])

        def theirs():
            if role == "fundee":
                return self.node.accept(whole, keys.point(0))
            spec = OpenSpec(whole, opening["funding_satoshis"], opening["push_msat"], opening["feerate_per_kw"],
                            opening["channel_flags"], opening["temporary_id"], *opening["funding"])
            return self.node.open(spec, keys.point(0))

        return self.same(theirs, lambda: self.model.open(label, role, keys, config, opening))

    # ---- calls

    def fund(self, *values):
        return self.same(lambda: self.node.fund(*values), lambda: self.model.fund(*values))

    def connect(self, number):
        return self.same(lambda: self.node.connect(number), lambda: self.model.connect(number))

    def disconnect(self, number):
        self.offering.pop(self.label_of(number), None)
        return self.same(lambda: self.node.disconnect(number), lambda: self.model.disconnect(number))

    def question(self, *values):
        return self.same(lambda: self.node.question(*values), lambda: self.model.question(*values))

    def message(self, number, data, how):
        """A message with the true answer to its question, with none, or with a bad one."""
        asked = answer_of(lambda: self.node.question(number, data))
        question = asked[1] if asked[0] == "ok" else None
        answer = judged(keys_of(self.label_of(number), True), question, data) if question and how == TRUE else b""
        answer = bytes([7]) if how == BAD else answer
        return self.same(lambda: self.node.message(number, data, answer),
                         lambda: self.model.message(number, data, answer))

    def command(self, number, command):
        told = self.same(lambda: self.node.command(number, command),
                         lambda: self.model.command(number, *links_command(command)))
        if told[0] == "ok" and isinstance(command, Add):
            self.own_count[command.payment_hash] += 1
        return told

    def sign(self):
        return self.same(self.node.sign, self.model.sign)

    def set_height(self, height):
        return self.same(lambda: self.node.set_height(height), lambda: self.model.set_height(height))

    def expect(self, *values):
        return self.same(lambda: self.node.expect(*values), lambda: self.model.expect(*values))

    def store(self):
        """The last batch that was handed out is on disk."""
        if self.batch:
            self.disk.update(self.batch)

    def saved(self, batch):
        batch = self.last.get("batch", 0) if batch is None else batch
        return self.same(lambda: self.node.saved(batch), lambda: self.model.saved(batch))

    def fill(self, number, message, how):
        """`how` is a failure as it is wrapped, or how a blank is filled."""
        message = self.last.get(("message", number), 0) if message is None else message
        blank, filling = self.blanks.get((number, message)), how
        if how in (TRUE, BAD):
            filling = filled(keys_of(self.label_of(number), True), blank) if blank else b""
            filling = filling[:-1] if how == BAD else filling
        return self.same(lambda: self.node.fill(number, message, filling),
                         lambda: self.model.fill(number, message, filling))

    def sent(self, number, message):
        message = self.last.get(("message", number), 0) if message is None else message
        line = self.model.lines[number] if number < len(self.model.lines) else []
        data = line[0].data if line else b""
        told = self.same(lambda: self.node.sent(number, message), lambda: self.model.sent(number, message))
        if told[0] == "ok":
            self.leaves(self.label_of(number), data)
        return told

    def onion(self, payment_hash, onion, found, hop):
        return self.same(lambda: self.node.onion(payment_hash, onion, found),
                         lambda: self.model.onion(payment_hash, onion, found, hop))

    def verdict(self, number, event, verdict):
        event = self.last.get(("event", number), 0) if event is None else event
        return self.same(lambda: self.node.verdict(number, event, verdict),
                         lambda: self.model.verdict(number, event, verdict))

    def resume(self, *values):
        return self.same(lambda: self.node.resume(*values), lambda: self.model.resume(*values))

    def held(self):
        return self.same(self.node.held, self.model.held)

    def look(self, number):
        return self.same(lambda: self.node.look(number), lambda: self.model.look(number))

    def view(self, number, which):
        return self.same(lambda: self.node.view(number, which), lambda: self.model.view(number, which))

    # ---- what is handed out

    def next(self):
        """The next item, which has to be due; None where nothing is."""
        item = self.node.next()
        if item is None:
            due = list(self.model.due())
            assert not due, f"nothing is handed out, and due is {due}"
            return None
        self.model.hand_out(item)
        self.told["items"] += 1
        self.note(item)
        if isinstance(item, Batch):
            ends = {number: self.model.ends[number] for number, _ in item.saved}
            self.batch = {ends[number].channel: (saved, ends[number].copied()) for number, saved in item.saved}
            if item.number % 16 == 0:
                self.look_into(*self.batch[self.label_of(item.saved[0][0])])
        if isinstance(item, NodeEvent):
            place = self.label_of(item.channel), item.item.number
            assert self.events.setdefault(place, item.item) == item.item, "an event is another one after a load"
            event = item.item.event
            if isinstance(event, Added) and not event.own:
                self.came_in[event.payment_hash].add((place[0], event.id))
        return item

    def note(self, item):
        if isinstance(item, Batch):
            self.last["batch"] = item.number
        elif isinstance(item, NodeEvent):
            self.told["events"] += 1
            self.last["event", item.channel] = item.item.number
        elif isinstance(item, (NodeMessage, WrapItem)):
            self.last["message", item.channel] = item.message
            is_blank = isinstance(item, NodeMessage) and isinstance(item.item, BlankItem)
            self.blanks[item.channel, item.message] = item.item.blank if is_blank else None

    def short(self):
        """There is no room for the next item: it comes again."""
        count, room = c_size_t(), create_string_buffer(1)
        answer = lnlink.library.library.lnl_node_next(byref(self.node._handle), room, 1, byref(count))
        is_due = any(self.model.due())
        assert (answer, count.value > 0) == ((82, True) if is_due else (0, False)), f"without room {answer}, {count}"
        return self.next()

    def look_into(self, saved, it):
        """A link of its own comes back of a record."""
        with Link.load(saved) as link:
            it = it.come_back()
            self.same(link.look, it.summary)
            for which, lists in enumerate(it.commitments()):
                self.same(lambda: link.view(which), lambda: it.worth(*lists))

    def label_of(self, number):
        return self.model.ends[number].channel if number < len(self.model.ends) else None

    def leaves(self, label, data):
        """A message leaves: of each payment that came in at most one that goes out is ever signed."""
        typ, m = decode(data)
        it = self.model.channels[label][0]
        if typ == 128:
            add = next(u for u in it.own if u["kind"] == "add" and u["id"] == m["id"])
            self.offering[label].append((m["id"], add.get("origin"), m["hash"]))
        elif typ == 132:
            for id, origin, payment_hash in self.offering.pop(label, []):
                self.went_out[payment_hash].add((label, id))
                most = len(self.came_in[payment_hash]) + self.own_count[payment_hash]
                assert len(self.went_out[payment_hash]) <= most, "as many out as have come in"
                if origin is not None:
                    self.told["forwarded"] += (label, id) not in self.ever[origin]
                    self.ever[origin].add((label, id))
                    assert len(self.ever[origin]) == 1, "one payment out for each payment in"


def toy_view(view):
    """A view as toy keys sign it."""
    data = u64(view.funder_msat) + u64(view.fundee_msat) + view.feerate_per_kw.to_bytes(4, "big")
    data += len(view.htlcs).to_bytes(4, "big")
    for it in view.htlcs:
        data += bytes([it.owner]) + u64(it.id) + u64(it.amount_msat) + it.payment_hash
        data += it.cltv_expiry.to_bytes(4, "big")
    return data


def filled(keys, blank):
    """What fills a blank, by toy keys."""
    if isinstance(blank, SignaturesBlank):
        return signature(keys.tag, blank.number, blank.point, toy_view(blank.view)) * (1 + len(blank.view.htlcs))
    if isinstance(blank, RevocationBlank):
        return keys.secret(blank.secret_number) + keys.point(blank.point_number)
    if isinstance(blank, PointBlank):
        return keys.point(blank.number)
    return close_signature(keys.tag, blank.closing.fee_satoshis)


def judged(keys, question, data):
    """The answer of toy keys to a question."""
    m = decode(data)[1]
    if isinstance(question, OwnSecretQuestion):
        return keys.secret(question.number)
    if isinstance(question, SecretQuestion):
        return bytes([point_of(m["secret"]) == question.point])
    if isinstance(question, CloseQuestion):
        return bytes([m["signature"] == close_signature(keys.peer_tag, m["fee_satoshis"])])
    sig = signature(keys.peer_tag, question.number, keys.point(question.number), toy_view(question.view))
    return bytes([[m["signature"], *m.get("htlc_signatures", [sig] * len(question.view.htlcs))]
                  == [sig] * (1 + len(question.view.htlcs))])


def is_refused(number):
    raise Refused(number)


def links_command(command):
    """A command as the model's link takes it; no kind for what is the node's own."""
    if isinstance(command, Confirm):
        return "confirm", int.from_bytes(command.short_channel_id, "big")
    if isinstance(command, Add) and command.origin is None:
        return "add", dict(kind="add", amount=command.amount_msat, hash=command.payment_hash,
                           expiry=command.cltv_expiry, onion=command.onion)
    if isinstance(command, Fee):
        return "fee", dict(kind="fee", rate=command.feerate_per_kw)
    if isinstance(command, Shutdown):
        return "shutdown", dict(script=command.scriptpubkey)
    return ("sign", {}) if isinstance(command, Sign) else (None, None)

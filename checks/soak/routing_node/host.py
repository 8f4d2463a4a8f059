"""The process that has the node, its records in SQLite, and its peers' messages by turns."""
import faulthandler, os, random, signal, sqlite3, struct, time, traceback
from ctypes import Structure, byref, c_long, c_size_t, c_void_p, CDLL

from lnlink.library import Handle, library
from lnlink.node_items import held_from_bytes
from lnlink.refusals import Refused, check

from wire import (AGAIN, BAD_ONION, BEGIN, CONFIRM, CONNECT, CUT, DIE, END, FAULT, FEE, HEIGHT, HELD, MESSAGE, OPEN,
                  REFUSE, REPORT, SETTINGS, STOP_CODE, STOPPED, TAKEN, Frames, Turns, Wrong, config_of, is_funder,
                  keys_of, opened, payment_secret_of, preimage_of, refused, short_id_of, spec_of, told)

NOT_READY, DISCONNECTED, MEMORY, HALTED = 40, 47, 60, 62
GO_ON, FAIL, HOLD = b"\0", b"\1", b"\2"
# How many turns the host holds a payment.
HOLD_TURNS = 3
# How many turns the host goes on with the other channels, once a link has halted.
GOES_ON = 0, 1, 1, 2, 3, 5
# Of so many allocations of a call one is refused, rather an early one: those of a load are more. Of calls beside these,
# which move channels, one in four is tried.
MOST, MOST_OF_LOAD = 100, 2000
MOVES = library.lnl_node_load, library.lnl_node_message, library.lnl_node_sign, library.lnl_node_verdict
TWO = struct.Struct(">QQ")


class Records:
    """The last record of each channel, and all secrets of its peer's."""

    def __init__(self, path, step):
        self.step = step
        self.base = sqlite3.connect(path, isolation_level=None)
        self.base.execute("PRAGMA journal_mode = WAL")
        self.base.execute("PRAGMA synchronous = OFF")  # a kill of the process loses nothing that was written
        self.base.execute("CREATE TABLE IF NOT EXISTS records (channel INTEGER PRIMARY KEY, saved BLOB NOT NULL)")
        self.base.execute(
            "CREATE TABLE IF NOT EXISTS secrets"
            " (channel INTEGER, number INTEGER, secret BLOB NOT NULL, PRIMARY KEY (channel, number)) WITHOUT ROWID"
        )

    def load(self):
        return [saved for saved, in self.base.execute("SELECT saved FROM records ORDER BY channel")]

    def by_steps(self, rows):
        for row in rows:
            self.step()
            yield row

    def save(self, rows):
        """In one transaction: the process may end at each row."""
        secrets = [(channel, *it) for channel, saved in rows for it in secrets_in(saved)]
        self.base.execute("BEGIN")
        self.base.executemany("REPLACE INTO records VALUES (?, ?)", self.by_steps(rows))
        self.base.executemany("REPLACE INTO secrets VALUES (?, ?, ?)", secrets)
        self.step()
        self.base.execute("COMMIT")
        self.step()


def signatures_end(saved):
    """Where the peer's signatures end in a record."""
    return 33 if not saved[32] else 33 + 80 + 64 * int.from_bytes(saved[105:113], "big")


def secrets_in(saved):
    """The peer's secrets in a record, each with its number."""
    at = signatures_end(saved)
    count = int.from_bytes(saved[at : at + 8], "big")
    ats = range(at + 8, at + 8 + 40 * count, 40)
    return [(int.from_bytes(saved[it : it + 8], "big"), saved[it + 8 : it + 40]) for it in ats]


class Mallinfo(Structure):
    _names = "arena ordblks smblks hblks hblkhd usmblks fsmblks uordblks fordblks keepcost"
    _fields_ = [(it, c_size_t) for it in _names.split()]


def used():
    """Bytes that malloc has given."""
    told = mallinfo()
    return told.uordblks + told.hblkhd


here = CDLL(None)
mallinfo = here.mallinfo2
mallinfo.restype = Mallinfo


def is_preloaded():
    """Whether allocations can be refused: by refuse.c."""
    return hasattr(here, "refuse_after")


def without(number, call, *arguments):
    """Makes a call of the library that lacks its allocation of this number: its answer, and whether it made one."""
    here.refuse_after(c_long(number), c_void_p.from_param(call))
    answer = call(*arguments)
    return answer, here.refuse_never()


class Host:
    """The node, by the calls of include/lnlink.h. It hands out what waits now and then, and all of it at the end of a
    turn; some events it decides, and some blanks it fills, only then. It signs in most turns. It ends by itself
    (SIGKILL) at its step of the number `last`: a step is a call, a row of a transaction, a message that is sent.

    From each of the steps of the numbers `refusals` on an allocation is refused, in the first call drawn that makes so
    many. A call that lacks memory is made again, some only later. Where a link has halted, the host goes on with the
    others for some turns, and then ends, so that all are loaded anew."""

    def __init__(self, socket, path, seed, life, last, refusals):
        faulthandler.register(signal.SIGUSR1)  # so it can tell where it hangs
        self.steps, self.last, self.seed = 0, last, seed
        self.refusals, self.refused, self.looked, self.leaves = sorted(refusals), 0, 0, 0
        self.socket, self.turns, self.out, self.turn = socket, Turns(socket), Frames(), 0
        self.chance = random.Random(f"host {seed} {life}")
        self.records, self.used_before = Records(path, self.step), used()
        self.keys, self.handle = [], Handle()
        self.at = byref(self.handle)
        self.untold, self.has_begun = [], False  # events, before it has begun
        self.late_events, self.late_blanks, self.held = [], [], []
        self.takes = {1: self.take_batch, 2: self.take_message, 3: self.take_event, 4: self.open_onion, 5: self.wrap}

    def step(self):
        self.steps += 1
        if self.steps == self.last:
            self.socket.sendall(self.out)
            os.kill(os.getpid(), signal.SIGKILL)

    def call(self, call, *arguments):
        """Calls the library, with an allocation refused where that is due."""
        if self.refusals and self.refusals[0] <= self.steps and (call in MOVES or self.chance.random() < 0.25):
            return self.call_without(call, *arguments)
        answer = call(self.at, *arguments)
        if answer == MEMORY:
            raise Wrong(f"{call.__name__} lacks memory, but nothing was refused")
        return answer

    def call_without(self, call, *arguments):
        most = MOST_OF_LOAD if call is library.lnl_node_load else MOST
        number = 1 + int(most * self.chance.random() ** 2)
        answer, was_refused = without(number, call, self.at, *arguments)
        if was_refused:
            del self.refusals[0]
            self.refused += 1
            numbers = [it for it in arguments if isinstance(it, int)]
            self.out.put(REFUSE, 0, f"{call.__name__} {numbers} lacks {number}, answers {answer}".encode())
        return answer

    def obey(self, call, *arguments, may_answer=()):
        """Its answer: 0, one of these, or that a link has halted. One that lacks memory is made again."""
        self.step()
        answer = self.call(call, *arguments)
        while answer == MEMORY and (MEMORY not in may_answer or self.chance.random() < 0.5):
            answer = self.call(call, *arguments)
        if answer and answer not in may_answer and not (answer == HALTED and self.refused):
            check(answer)
        return answer

    def told(self, call, *arguments, may_lack=False):
        """What a call tells. One that lacks memory is made again, or it tells nothing for now."""
        while True:
            try:
                return told(self.call, call, *arguments)
            except Refused as found:
                if found.number != MEMORY:
                    raise
            if may_lack and self.chance.random() < 0.5:
                return b""

    # ---- its life

    def load(self):
        records, settings = self.records.load(), SETTINGS.to_bytes()
        saved = b"".join(part for it in records for part in (len(it).to_bytes(8, "big"), it))
        self.obey(library.lnl_node_load, settings, len(settings), saved, len(saved))
        self.keys = [keys_of(b"node", it) for it in range(len(records))]
        self.obey(library.lnl_node_height, HEIGHT)
        self.has_begun = not records
        self.hand_out()
        self.held = [(HOLD_TURNS, it.channel, it.event) for it in held_from_bytes(self.told(library.lnl_node_held))]

    def run(self):
        try:
            self.load()
            while frames := self.turns.next():
                self.turn += 1
                for kind, channel, data in frames:
                    self.take(kind, channel, data)
        except Exception as found:
            why = str(found) if isinstance(found, Wrong) else traceback.format_exc()
            self.out.put(FAULT, 0, why.encode())
            self.socket.sendall(self.out)

    def take(self, kind, channel, data):
        if kind == MESSAGE:
            self.take_in(channel, data)
        elif kind == END:
            self.end_turn()
        elif kind == OPEN:
            self.open(channel)
        elif kind == CONFIRM:
            self.command(channel, b"\0" + short_id_of(channel))
        elif kind == CONNECT:
            self.obey(library.lnl_node_connect, channel)
        elif kind == CUT:
            self.obey(library.lnl_node_disconnect, channel)
            self.out.put(CUT, channel)
        elif kind == BEGIN:
            self.begin()
        elif kind == FEE:
            self.command(channel, b"\5" + data, may_answer=(NOT_READY, DISCONNECTED, MEMORY))
        elif kind == DIE:
            self.last = self.steps + int.from_bytes(data, "big")
        elif kind == REFUSE:
            self.refusals = sorted([*self.refusals, self.steps + int.from_bytes(data, "big")])
        elif kind == REPORT:
            self.report()

    def command(self, channel, command, may_answer=()):
        self.obey(library.lnl_node_command, channel, command, len(command), may_answer=may_answer)

    def open(self, channel):
        keys, number = keys_of(b"node", channel), c_size_t()
        self.keys.append(keys)
        if is_funder(channel):
            call, data = library.lnl_node_accept, config_of(keys, channel).to_bytes()
        else:
            call, data = library.lnl_node_open, spec_of(keys, channel).to_bytes()
        self.obey(call, data, len(data), keys.point(0), 33, byref(number))
        assert number.value == channel

    def take_in(self, channel, message):
        while self.give(channel, message) == MEMORY:
            pass
        if self.chance.random() < 0.25:
            self.hand_out(self.chance.choice((1, 3, 10, 1000)))

    def give(self, channel, message):
        """By a link that has halted nothing is asked."""
        question = self.told(library.lnl_node_question, channel, message, len(message))
        answer = self.keys[channel].answer(question, message)
        self.step()
        number = self.call(library.lnl_node_message, channel, message, len(message), answer, len(answer))
        if number not in (0, MEMORY) and not (number == HALTED and self.refused):
            raise refused("the node", channel, message, number)
        return number

    def begin(self):
        """Events are decided from now on."""
        self.has_begun, untold = True, self.untold
        self.untold = []
        for item in untold:
            self.tell(item)

    def look_for_halts(self):
        """Where a link has halted, the host ends some turns later."""
        if self.looked < self.refused and not self.leaves:
            self.looked = self.refused
            looks = [self.told(library.lnl_node_look, it) for it in range(len(self.keys))]
            if any(it[1] for it in looks):
                self.leaves = self.turn + self.chance.choice(GOES_ON)
        if self.leaves and self.leaves <= self.turn:
            library.lnl_node_free(self.at)
            self.out.put(AGAIN)
            self.socket.sendall(self.out)
            os._exit(0)

    def end_turn(self):
        self.look_for_halts()
        self.hand_out()
        late, self.late_events = self.late_events, []
        for item in late:
            self.tell(item)
        self.resume()
        self.hand_out()
        if self.chance.random() < 0.8:
            self.obey(library.lnl_node_sign)
        self.hand_out()
        late, self.late_blanks = self.late_blanks, []
        for channel, message, filling in late:
            self.fill(channel, message, filling, may_answer=(NOT_READY, MEMORY))  # its connection may have been lost
        self.hand_out()
        self.out.put(END, 0, struct.pack(">QI", time.process_time_ns(), self.steps))
        self.socket.sendall(self.out)
        self.out = Frames()

    def resume(self):
        if not self.has_begun:
            return
        due = [it for it in self.held if it[0] <= self.turn]
        self.held = [it for it in self.held if it[0] > self.turn]
        for _, channel, event in due:
            if self.obey(library.lnl_node_resume, channel, event, GO_ON, 1, may_answer=(MEMORY,)) == MEMORY:
                self.held.append((self.turn + 1, channel, event))

    def report(self):
        for channel in range(len(self.keys)):
            self.out.put(REPORT, channel, self.told(library.lnl_node_look, channel))
        held = self.told(library.lnl_node_held)
        self.out.put(REPORT, len(self.keys), struct.pack(">QQ", len(held), used() - self.used_before))

    # ---- what the node hands out

    def hand_out(self, most=1 << 60):
        for _ in range(most):
            item = self.told(library.lnl_node_next, may_lack=self.has_begun)
            if not item:
                return
            self.step()
            self.takes[item[0]](item)

    def take_batch(self, item):
        number, count = TWO.unpack_from(item, 1)
        rows, at = [], 17
        for _ in range(count):
            channel, size = TWO.unpack_from(item, at)
            at += 16 + size
            rows.append((channel, item[at - size : at]))
        self.records.save(rows)
        self.obey(library.lnl_node_saved, number)

    def take_message(self, item):
        channel, message = TWO.unpack_from(item, 1)
        if item[17] == 2:
            filling = self.keys[channel].fill(item[18:])
            if self.chance.random() < 0.02:
                self.late_blanks.append((channel, message, filling))
            else:
                self.fill(channel, message, filling)
        else:
            self.obey(library.lnl_node_sent, channel, message)
            self.out.put(MESSAGE, channel, item[18:])
            self.step()

    def fill(self, channel, message, filling, may_answer=(MEMORY,)):
        arguments = channel, message, filling, len(filling)
        if self.obey(library.lnl_node_fill, *arguments, may_answer=may_answer) == MEMORY:
            self.late_blanks.append((channel, message, filling))

    def take_event(self, item):
        if not self.has_begun:
            self.untold.append(item)
        elif self.chance.random() < 0.05:
            self.late_events.append(item)
        else:
            self.tell(item)

    def tell(self, item):
        channel, number = int.from_bytes(item[1:9], "big"), int.from_bytes(item[10:18], "big")
        verdict = GO_ON
        if item[18] == 0 and not item[19]:  # an HTLC that a peer has offered, with its onion
            verdict = {STOPPED: FAIL + STOP_CODE, HELD: HOLD}.get(item[72], GO_ON)
        answer = self.obey(library.lnl_node_verdict, channel, number, verdict, len(verdict), may_answer=(MEMORY,))
        if answer == MEMORY:
            self.late_events.append(item)
        elif verdict == HOLD:
            self.held.append((self.turn + HOLD_TURNS, channel, number))

    def open_onion(self, item):
        if not item[1]:
            return
        payment_hash, onion = item[2:34], item[34:]
        payload, number = opened(onion)
        found = b"\0" + payload
        if onion[0] == BAD_ONION:
            found = b"\2"
        elif onion[0] == TAKEN:
            self.expect(preimage_of(self.seed, int.from_bytes(number, "big")), payload)
        else:
            found += number.ljust(1366, b"\0")
        self.obey(library.lnl_node_onion, payment_hash, 32, onion, len(onion), found, len(found))

    def expect(self, preimage, payload):
        """A payment is for the node itself, of the amount that its payload ends by."""
        amount = int.from_bytes(payload[4 : 4 + payload[3]], "big")
        self.obey(library.lnl_node_expect, preimage, 32, payment_secret_of(preimage), 32, amount)

    def wrap(self, item):
        """A failure that came back, or one of the node's own."""
        channel, message = TWO.unpack_from(item, 1)
        assert item[25] == 1, "an HTLC without its onion"
        self.fill(channel, message, (b"passed on " if item[1424] else b"own ") + item[1425:])

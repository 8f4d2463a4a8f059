"""The node's process as its peers see it: one life after the other, each up to its kill."""
import contextlib, os, signal, socket, time

from host import Host
from wire import END, FAULT, Turns, Wrong


class Process:
    """It takes a turn, and then gives one. Its processor's time is counted by what it does meanwhile."""

    def __init__(self, path, seed, limit):
        self.path, self.seed, self.limit = path, seed, limit
        self.life = self.pid = 0
        self.doing, self.seconds, self.counted = "opens", {"opens": 0.0, "starts": 0.0, "pays": 0.0}, 0.0
        self.steps = self.steps_before = 0

    def start(self, last=0, refusals=()):
        """It ends by itself at its step of this number, where that isn't 0. From each of these steps on an allocation
        is refused."""
        self.life += 1
        own, other = socket.socketpair()
        self.pid = os.fork()
        if not self.pid:
            try:
                own.close()
                Host(other, self.path, self.seed, self.life, last, refusals).run()
            finally:
                os._exit(0)
        other.close()
        own.settimeout(self.limit)
        self.socket, self.turns = own, Turns(own)
        self.steps = self.steps_before = 0
        self.counted = 0.0

    def count(self, seconds):
        self.seconds[self.doing] += seconds - self.counted
        self.counted = seconds

    def send(self, frames):
        frames.put(END)
        with contextlib.suppress(ConnectionError):  # it may have been killed in its start
            self.socket.sendall(frames)

    def next(self):
        """The frames of its turn. END is the last, unless it has ended in it."""
        try:
            frames = self.turns.next()
        except TimeoutError:
            os.kill(self.pid, signal.SIGUSR1)  # it tells on stderr where it is
            time.sleep(1)
            raise Wrong(f"a turn of the node takes more than {self.limit} seconds") from None
        if frames and frames[-1][0] == FAULT:
            raise Wrong(f"the node's process: {frames[-1][2].decode()}")
        if frames and frames[-1][0] == END:
            data = frames[-1][2]
            self.count(int.from_bytes(data[:8], "big") / 1e9)
            self.steps_before, self.steps = self.steps, int.from_bytes(data[8:], "big")
        return frames

    def end(self):
        """Waits for its end: its status, or the signal by which it was killed, below 0."""
        _, status, usage = os.wait4(self.pid, 0)
        self.pid = 0
        self.socket.close()
        self.count(usage.ru_utime + usage.ru_stime)
        return os.waitstatus_to_exitcode(status)

    def stop(self):
        if self.pid:
            os.kill(self.pid, signal.SIGKILL)
            os.waitpid(self.pid, 0)

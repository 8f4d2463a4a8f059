"""The processes of nodes that `run`, `hostile` and `many` drive by lines, and `measure scale`."""
import os, resource, signal, subprocess, sys, threading, time

HERE = os.path.dirname(os.path.abspath(__file__))
sys.path.insert(0, os.path.dirname(HERE))
import proved

LIBRARIES = "ln_toy_channels ln_node ln_book ln_sqlite ln_store ln_link ln_channel ln_hooks ln_keys ln_log ln_msgs ln_refusals ln_bytes"
TICKS = os.sysconf("SC_CLK_TCK")


def program(room):
    """The program of soak_node/."""
    return proved.program(room, f"{HERE}/soak_node", "soak_node", LIBRARIES)


class Node:
    """A node's process, of so many channels where its name leaves that open. Threads may ask it in turn."""

    def __init__(self, made, name, folder, channels=0):
        self.made, self.name, self.folder, self.ports = made, name, folder, []
        # What it is run by, where it isn't by itself.
        self.by = []
        self.channels, self.process, self.turn = channels, None, threading.Lock()

    def start(self, *peers):
        """With the ports of its peers."""
        words = [*self.by, self.made, self.name, self.folder, ",".join(map(str, peers)), str(self.channels)]
        how = {"stdin": subprocess.PIPE, "stdout": subprocess.PIPE, "text": True, "bufsize": 1}
        self.process = subprocess.Popen(words, **how)
        self.ports = []
        for line in self.ask("begin"):
            if not line.startswith("port "):
                raise RuntimeError(f"{self.name}: {line}")
            self.ports.append(int(line.split()[1]))

    def ask(self, line):
        """What it tells up to the end of its answer."""
        with self.turn:
            try:
                self.process.stdin.write(line + "\n")
                self.process.stdin.flush()
            except OSError:
                raise RuntimeError(f"{self.name} has ended") from None
            told = []
            while True:
                got = self.process.stdout.readline()
                if not got:
                    raise RuntimeError(f"{self.name} has ended: {told}")
                if got == ".\n":
                    return told
                told.append(got.rstrip("\n"))

    def tell(self):
        """How many of its channels take payments, and have closed; what its hooks have seen of its own HTLCs, of its
        peers', and of both."""
        (usable, closed), *seen = (map(int, it.split()) for it in self.ask("tell"))
        names = "added fulfilled failed twice_added twice_fulfilled".split()
        own, peers = (dict(zip(names, it)) for it in seen)
        both = {it: own[it] + peers[it] for it in names}
        return {"usable": usable, "closed": closed, "own": own, "peers": peers, **both}

    def offer(self, first, behind, most, channels):
        """Offers payments, so many under way at most, between two of so many channels each."""
        while told := self.ask(f"spread {first} {behind} {most} {channels}"):
            first = int(told[0].split()[1])
            time.sleep(0.01)

    def status(self, name):
        """What the system tells of the process by this name, a number."""
        with open(f"/proc/{self.process.pid}/status") as it:
            return next(int(line.split()[1]) for line in it if line.startswith(f"{name}:"))

    def memory(self):
        """In MiB."""
        return self.status("VmRSS") / 1024

    def greatest_memory(self):
        """In MiB, up to now."""
        return self.status("VmHWM") / 1024

    def seconds(self):
        """Of a processor, so far."""
        with open(f"/proc/{self.process.pid}/stat") as it:
            fields = it.read().rsplit(")", 1)[1].split()
        return (int(fields[11]) + int(fields[12])) / TICKS

    def wakeups(self):
        """How often one of its threads has waited for something, so far."""
        count = 0
        for task in os.listdir(f"/proc/{self.process.pid}/task"):
            with open(f"/proc/{self.process.pid}/task/{task}/status") as it:
                count += next(int(line.split()[1]) for line in it if line.startswith("voluntary_ctxt_switches:"))
        return count

    def kill(self):
        self.process.send_signal(signal.SIGKILL)
        self.process.wait()

    def stop(self):
        self.process.stdin.close()
        self.process.wait(60)


class Two:
    """A node in the middle with so many channels, and the node that has their other ends."""

    def __init__(self, made, folder, channels, limit=60):
        most = resource.getrlimit(resource.RLIMIT_NOFILE)[1]
        resource.setrlimit(resource.RLIMIT_NOFILE, (most, most))
        self.middle, self.ends = (Node(made, name, folder, channels) for name in "me")
        self.both, self.channels, self.limit = [self.middle, self.ends], channels, limit

    def begin(self):
        """Until each channel takes payments, and signs by itself."""
        self.middle.start(0)
        self.ends.start(*self.middle.ports)
        for it in self.both:
            it.ask("idle")
        self.wait(self.is_usable, "the channels don't open")

    def of_a_channel(self):
        """Threads and MiB of a channel of the middle node, beside those of a node without channels."""
        alone = Node(self.middle.made, "m", "-")
        alone.start(0)
        threads, memory = (ask(self.middle) - ask(alone) for ask in (lambda it: it.status("Threads"), Node.memory))
        alone.stop()
        return threads / self.channels, memory / self.channels

    def is_usable(self):
        if all(it.tell()["usable"] == self.channels for it in self.both):
            return True
        for it in self.both:
            it.ask("confirm")
        return False

    def wait(self, holds, why):
        since = time.time()
        while not holds():
            if time.time() - since > self.limit:
                raise RuntimeError(f"{why}: {[it.tell() for it in self.both]}")
            time.sleep(0.05)

    def is_quiet(self):
        """Whether nothing is under way, for two looks."""
        for _ in range(2):
            own = self.ends.tell()["own"]
            busy = any(it.ask("busy") != ["0"] for it in self.both)
            if busy or own["added"] != own["fulfilled"] + own["failed"]:
                return False
            time.sleep(0.1)
        return True

    def quiet(self):
        """Until all that was ordered was taken, and nothing is under way."""
        for it in self.both:
            it.ask("flush")
        self.wait(self.is_quiet, "payments don't end")

    def end(self):
        for it in reversed(self.both):
            it.stop()

    def kill(self):
        for it in self.both:
            if it.process:
                it.process.kill()

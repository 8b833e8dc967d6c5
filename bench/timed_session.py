"""A session of the built program over a file, whose lines are timed."""
import os, subprocess, time


class TimedSession:
    """A session over a file, asked line by line. `remove` takes its file and gate away."""

    def __init__(self, program, path):
        self.path = path
        self.process = subprocess.Popen([program, "run", path], stdin=subprocess.PIPE, stdout=subprocess.PIPE)

    def ask(self, line):
        """The seconds until the end of the reply, which must be `ok`."""
        start = time.perf_counter()
        self.process.stdin.write(line.encode() + b"\n")
        self.process.stdin.flush()
        while (said := self.process.stdout.readline()).startswith(b"- "):
            pass
        took = time.perf_counter() - start
        assert said.startswith(b"ok"), (line, said)
        return took

    def most(self):
        """Its greatest memory so far, in MB."""
        with open(f"/proc/{self.process.pid}/status") as it:
            return next(int(line.split()[1]) for line in it if line.startswith("VmHWM")) / 1_000

    def written(self):
        """How many bytes it has written so far, replies among them."""
        with open(f"/proc/{self.process.pid}/io") as it:
            return int(next(line for line in it if line.startswith("wchar")).split()[1])

    def end(self):
        self.process.stdin.close()
        assert self.process.wait() == 0

    def remove(self):
        remove(self.path)


def remove(path):
    """Takes a file and its gate away, where they are."""
    for name in path, path + ".gate":
        if os.path.exists(name):
            os.remove(name)

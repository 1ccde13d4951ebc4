"""One run of a program, with its limits, what it printed and what it used."""
import contextlib
import os
import resource
import signal
import time

PAGE = resource.getpagesize()
WATCH = 0.2


class Run:
    """What a run gave: its status, or the signal that ended it, its two outputs, and what it used."""

    def __init__(self, waited, usage, outputs, wall, stopped):
        self.signal = os.WTERMSIG(waited) if os.WIFSIGNALED(waited) else None
        self.status = None if self.signal else os.WEXITSTATUS(waited)
        self.out, self.err = outputs
        self.seconds = usage.ru_utime + usage.ru_stime
        self.kilobytes = usage.ru_maxrss
        self.wall = wall
        self.stopped = stopped

    def shown(self):
        """The run in a few words."""
        end = f"signal {self.signal}" if self.signal else f"status {self.status}"
        more = f", stopped for its {self.stopped}" if self.stopped else ""
        return f"{end}{more}, {self.seconds:.2f} s of the processor, {self.kilobytes} kB"


class Watch:
    """Stops a process, the own child, whose processor time, wall time or resident memory passes a limit."""

    def __init__(self, child, seconds, wall, megabytes):
        self.child, self.seconds, self.wall, self.megabytes = child, seconds, wall, megabytes
        self.begin = time.monotonic()
        self.stopped = None

    def used(self):
        """The processor seconds and the resident megabytes of the child."""
        with open(f"/proc/{self.child}/stat", encoding="ascii", errors="replace") as it:
            fields = it.read().rpartition(")")[2].split()
        with open(f"/proc/{self.child}/statm", encoding="ascii") as it:
            pages = int(it.read().split()[1])
        return (int(fields[11]) + int(fields[12])) / os.sysconf("SC_CLK_TCK"), pages * PAGE >> 20

    def look(self, *_):
        """Stops the child if it is past a limit."""
        with contextlib.suppress(OSError, IndexError):
            seconds, megabytes = self.used()
            if seconds > self.seconds:
                self.stopped = "time"
            elif time.monotonic() - self.begin > self.wall:
                self.stopped = "wall time"
            elif megabytes > self.megabytes:
                self.stopped = "memory"
            if self.stopped:
                os.kill(self.child, signal.SIGKILL)


def run(program, words, outputs, seconds=10, wall=900, megabytes=4096):
    """Runs the program in the present folder without a shell, its two outputs in files of the given folder."""
    names = [os.path.join(outputs, name) for name in ("out", "err")]
    flags = os.O_WRONLY | os.O_CREAT | os.O_TRUNC
    actions = [(os.POSIX_SPAWN_OPEN, 0, "/dev/null", os.O_RDONLY, 0)]
    actions += [(os.POSIX_SPAWN_OPEN, number, name, flags, 0o600) for number, name in enumerate(names, 1)]
    begin = time.monotonic()
    child = os.posix_spawn(program, [program, *words], os.environ, file_actions=actions)
    watch = Watch(child, seconds, wall, megabytes)
    old = signal.signal(signal.SIGALRM, watch.look)
    signal.setitimer(signal.ITIMER_REAL, WATCH, WATCH)
    try:
        _, waited, usage = os.wait4(child, 0)
    finally:
        signal.setitimer(signal.ITIMER_REAL, 0)
        signal.signal(signal.SIGALRM, old)
    texts = []
    for name in names:
        with open(name, "rb") as it:
            texts.append(it.read(1 << 26))
    return Run(waited, usage, texts, time.monotonic() - begin, watch.stopped)

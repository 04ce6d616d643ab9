"""The report of a run of `rt ci`: which crates are proved, and how long the rest is likely to take."""

import re
import threading
import time

# A task that takes less than this part of its estimate was kept by an earlier run.
KEPT = 0.05
# The part of the processors that proofs use, until enough are done to measure it; and the seconds of processor that are enough.
BUSY, ENOUGH = 0.75, 600
PROVED = re.compile(r"rt: \S+( proved|: its tests are proved| is kept: .*)\n")


class Report:
    """A text stream that gives the lines of rt to another one, without the details of crates that are proved."""

    def __init__(self, to):
        self.to, self.part, self.details, self.lock = to, "", None, threading.RLock()
        # rt writes the output of tests as bytes
        self.buffer = self

    def write(self, text):
        if isinstance(text, bytes):
            text = text.decode(errors="replace")
        with self.lock:
            *lines, self.part = (self.part + text).splitlines(keepends=True) or [""]
            if self.part.endswith("\n"):
                lines, self.part = [*lines, self.part], ""
            for line in lines:
                self.add(line)
        return len(text)

    def add(self, line):
        """The lines between `== CRATE` and the result of the crate are its details."""
        if line.startswith("== "):
            self.show()
            self.details = [line]
        elif PROVED.fullmatch(line):
            self.details = None
            self.to.write(line)
        elif line.startswith("rt: ") and "NOT PROVED" in line:
            self.show()
            self.to.write(line)
        elif self.details is not None:
            self.details.append(line)
        else:
            self.to.write(line)
        self.to.flush()

    def show(self):
        """Writes the details so far."""
        self.to.write("".join(self.details or ()))
        self.details = None

    def line(self, text):
        """Writes a line of its own."""
        with self.lock:
            self.to.write(text + "\n")
            self.to.flush()

    def flush(self):
        with self.lock:
            self.show()
            self.to.write(self.part)
            self.part = ""
            self.to.flush()


class Progress:
    """Counts the proofs of crates, and estimates the time that the rest takes. `say` prints a line."""

    def __init__(self, tasks, processors, say, clock=time.monotonic):
        self.proofs = [it for it in tasks if it.key[1] == "proof"]
        self.tasks, self.processors, self.say, self.clock = [*tasks], processors, say, clock
        self.started, self.ended, self.start_time = {}, set(), clock()
        # the estimated seconds of processor of the tasks that were really done, and when the first of them started
        self.done, self.since = 0, None

    def start(self, task):
        self.started[task.key] = self.clock()

    def end(self, task):
        """Notes that a task has ended, and reports a proof."""
        took = self.clock() - self.started[task.key]
        self.ended.add(task.key)
        if took >= KEPT * task.takes / self.processors and task.takes:
            self.done += task.takes
            self.since = min(self.since or self.started[task.key], self.started[task.key])
        if task.key[1] == "proof":
            self.say(f"{self.line()}; {task.key[0]} took {took:.0f} s")

    def tell(self):
        """Reports the running tasks."""
        running = [it for it in self.tasks if it.key in self.started and it.key not in self.ended and it.lines]
        names = {" ".join(it.key[:1] if it.key[1] == "proof" else map(str, it.key)).strip(): None for it in running}
        self.say(f"{self.line()}; running: {', '.join(names)}")

    def line(self):
        count = sum(it.key in self.ended for it in self.proofs)
        return f"-- crate {count} of {len(self.proofs)}, {self.clock() - self.start_time:.0f} s, about {self.left() / 60:.0f} min left"

    def left(self):
        """The estimate of the seconds that the rest takes: as fast as up to now, but for the longest chain of tasks on half of the
        processors."""
        now, rest, chain = self.clock(), 0, 0
        speed = self.speed(now)
        for task in self.tasks:
            if task.key in self.ended:
                continue
            spent = min(task.takes, (now - self.started.get(task.key, now)) * speed)
            rest += task.takes - spent
            chain = max(chain, task.following - spent)
        return max(rest / speed, chain / max(1, self.processors / 2))

    def speed(self, now):
        """The seconds of processor per second."""
        if self.done < ENOUGH or now <= self.since:
            return BUSY * self.processors
        return max(self.done / (now - self.since), 0.5)

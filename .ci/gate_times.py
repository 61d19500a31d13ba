"""What the checks of a run of the gate take. Each check is a process of the prover: four times a second its time is read, with that of those
that it started and of those that have ended, and the greatest reading is kept."""
import os
import threading

# The crate whose proof others are counted in, since a processor's seconds differ by half from machine to machine and from hour to hour.
YARDSTICK = "prims_table"
TICKS = os.sysconf("SC_CLK_TCK")
PAGE_BYTES = os.sysconf("SC_PAGE_SIZE")


def processes():
    """Each process: its parent, its seconds with those of its ended children, its memory, and when it began."""
    found = {}
    for name in os.listdir("/proc"):
        if not name.isdigit():
            continue
        try:
            with open(f"/proc/{name}/stat", encoding="utf-8", errors="replace") as file:
                fields = file.read().rpartition(")")[2].split()
        except OSError:
            continue
        seconds = sum(int(it) for it in fields[11:15]) / TICKS
        found[int(name)] = (int(fields[1]), seconds, int(fields[21]) * PAGE_BYTES, fields[19])
    return found


def check_of(pid):
    """The crate and the kind of check that a process is, where it is the prover's."""
    try:
        with open(f"/proc/{pid}/cmdline", "rb") as file:
            words = file.read().decode(errors="replace").split("\0")
        folder = os.readlink(f"/proc/{pid}/cwd")
    except OSError:
        return None
    if not words[0].endswith("/rattle") or words[1:2] not in (["check"], ["build"]) or "--crate-name" not in words:
        return None
    kind = "edits" if "/rt-edit-" in folder else "tests" if "--test" in words else "proof"
    return words[words.index("--crate-name") + 1], kind


def family_of(pid, children):
    """A process and all that it started."""
    return [pid, *(it for child in children.get(pid, []) for it in family_of(child, children))]


class Sampler:
    """The greatest reading of each check below a process."""

    def __init__(self, root):
        self.root, self.checks, self.readings = root, {}, {}
        self.ended = threading.Event()
        threading.Thread(target=self.read_on, daemon=True).start()

    def read_on(self):
        """Reads until all has ended."""
        while not self.ended.wait(0.25):
            self.read()

    def read(self):
        """Reads what is there now."""
        found = processes()
        children = {}
        for pid, (parent, *_) in found.items():
            children.setdefault(parent, []).append(pid)
        waiting = [self.root]
        while waiting:
            pid = waiting.pop()
            if pid not in found:
                continue
            key = (pid, found[pid][3])
            if not self.checks.get(key):
                self.checks[key] = check_of(pid)
            if self.checks[key]:
                self.keep(key, [found[it] for it in family_of(pid, children) if it in found])
            else:
                waiting += children.get(pid, [])

    def keep(self, key, family):
        """Keeps the reading of a check and of what it started, where it is the greatest."""
        seconds, memory = self.readings.get(key, (0, 0))
        self.readings[key] = max(seconds, sum(it[1] for it in family)), max(memory, max(it[2] for it in family))

    def sums(self):
        """Seconds by crate and kind, and the most memory by crate."""
        seconds, memory = {}, {}
        for key, (spent, held) in [*self.readings.items()]:
            crate, kind = self.checks[key]
            seconds[crate, kind] = seconds.get((crate, kind), 0) + spent
            memory[crate] = max(memory.get(crate, 0), held)
        return seconds, memory


def in_yardsticks(seconds):
    """The sum of the seconds, and how many yardsticks that is."""
    whole, yardstick = sum(seconds.values()), seconds.get((YARDSTICK, "proof"), 0)
    counted = f"{whole / yardstick:.0f} yardsticks" if yardstick else "no yardstick"
    return f"{whole:,.0f} seconds of a processor, {counted}: the proof of `{YARDSTICK}` took {yardstick:.0f}"

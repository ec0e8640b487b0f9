"""How long a proof of the program takes on this machine: by the processor time that each crate took where it was measured, and by
what the last crates took here. It is imported by first_build.py and library_build.py."""
import collections
import heapq
import os
import time

TICK = os.sysconf('SC_CLK_TCK')
# The last crates are those whose measured costs come to so much, in seconds; what is lacking to the least is made up by the test of speed.
LAST, LEAST = 300, 60
# How much of the processors the crates get is seen over so long, in seconds, after a start at which they are taken to get all.
WINDOW, START = 180, 30


def one_loop():
    start, total = time.process_time(), 0
    for number in range(1_000_000):
        total += number * number % 7
    return time.process_time() - start


def loop_seconds():
    """The processor time of one fixed loop, the least of three, by which the speeds of two machines compare."""
    return min(one_loop() for _ in range(3))


def processors():
    return len(os.sched_getaffinity(0))


def minutes(seconds):
    if seconds < 90:
        return f'{max(5, round(seconds / 5) * 5)} seconds'
    return f'{round(seconds / 60)} minutes'


class Costs:
    """Processor seconds for each crate, and those of the fixed loop on the machine where they were measured."""

    def __init__(self, loop, crates):
        self.loop, self.crates = loop, crates

    @classmethod
    def read(cls, path):
        crates = {}
        with open(path, encoding='utf-8') as file:
            for line in file:
                if not line.startswith('#'):
                    name, seconds = line.split()
                    crates[name] = float(seconds)
        return cls(crates.pop('loop'), crates)

    def write(self, path):
        with open(path, 'w', encoding='utf-8') as file:
            file.write('# Processor seconds that the proof of each crate took from nothing, and those of the fixed loop on the same machine.\n'
                       '# Written by tools/first_build.py --measure; by these the time that is left is told.\n')
            file.write(f'loop {self.loop:.3f}\n')
            file.writelines(f'{name} {seconds:.1f}\n' for name, seconds in self.crates.items())

    def of(self, name):
        """The cost of a crate; of one that was not measured, what they cost on average."""
        return self.crates.get(name) or sum(self.crates.values()) / len(self.crates)


class Watch:
    """What the gate has done, and by that, how long the rest takes, with the crates in `after`, which are proved when it has passed."""

    def __init__(self, names, uses, costs, after=()):
        self.names, self.uses, self.measured, self.after = names, uses, costs, after
        self.begun, self.times, self.running = time.monotonic(), {}, []
        self.done, self.kept, self.ended = set(), set(), []
        self.first_ratio = loop_seconds() / costs.loop
        # at each look the clock, the processor time that the crates could have had by then, and what they had
        self.looks = collections.deque([(self.begun, 0.0, 0.0)])

    def keep(self, name):
        if name not in self.uses or name in self.done:
            return False
        self.done.add(name)
        self.kept.add(name)
        return True

    def end(self, name):
        if name not in self.uses or name in self.done:
            return False
        self.done.add(name)
        self.ended.append(name)
        return True

    def look(self, session):
        """Notes the processor time of each process of the gate that works on a crate."""
        ran, self.running = len(self.running), []
        for entry in os.listdir('/proc'):
            if entry.isdigit():
                self.look_at(entry, session)
        before, could, _ = self.looks[-1]
        now = time.monotonic()
        self.looks.append((now, could + min(ran, processors()) * (now - before), sum(map(self.taken, self.times))))
        while now - self.looks[0][0] > WINDOW:
            self.looks.popleft()

    def look_at(self, entry, session):
        try:
            with open(f'/proc/{entry}/stat', encoding='utf-8', errors='replace') as file:
                fields = file.read().rpartition(')')[2].split()
            if int(fields[3]) != session:
                return
            with open(f'/proc/{entry}/cmdline', encoding='utf-8', errors='replace') as file:
                words = file.read().split('\0')
        except (OSError, ValueError, IndexError):
            # the process has ended
            return
        if '--crate-name' in words[:-1]:
            name = words[words.index('--crate-name') + 1]
            self.times.setdefault(name, {})[entry, fields[19]] = (int(fields[11]) + int(fields[12])) / TICK
            if name not in self.running:
                self.running.append(name)

    def taken(self, name):
        return sum(self.times.get(name, {}).values())

    def last_ended(self):
        """The processor time that the last crates took here, and what they cost where it was measured."""
        taken = cost = 0.0
        for name in reversed(self.ended):
            if cost < LAST and self.taken(name):
                taken += self.taken(name)
                cost += self.measured.of(name)
        return taken, cost

    def ratio(self):
        """How much longer a crate takes here than where it was measured, by the last that ended and by those that are late."""
        taken, cost = self.last_ended()
        lacking = max(LEAST - cost, 0)
        taken, cost = taken + lacking * self.first_ratio, cost + lacking
        ratio = taken / cost
        for name in self.running:
            if name in self.uses and name not in self.done and self.taken(name) > ratio * self.measured.of(name):
                taken += self.taken(name)
                cost += self.measured.of(name)
        return taken / cost

    def share(self):
        """The part of the processors that the crates which are being proved got lately; the rest went to other work on this machine."""
        (_, could_before, had_before), (_, could, had) = self.looks[0], self.looks[-1]
        return min(max((had - had_before + START) / (could - could_before + START), 0.1), 1)

    def work_left(self, name, ratio):
        """The processor time that the crate still takes; where it is late, a tenth of what it took."""
        taken = self.taken(name)
        return max(ratio * self.measured.of(name) - taken, taken / 10, 1)

    def seconds_left(self):
        """By the clock: the rest is dealt to the processors, crates with the longest chain of others behind them first."""
        ratio, share = self.ratio(), self.share()
        left = {name: self.work_left(name, ratio) for name in self.names if name not in self.done}
        behind = dict(left)
        for name in reversed(self.names):
            for used in self.uses[name]:
                if name in left and used in left:
                    behind[used] = max(behind[used], left[used] + behind[name])
        now, busy, waiting, open_names = 0.0, [], sorted(left, key=lambda name: -behind[name]), set(left)
        while waiting or busy:
            ready = [name for name in waiting if not open_names.intersection(self.uses[name])]
            if ready and len(busy) < processors():
                waiting.remove(ready[0])
                heapq.heappush(busy, (now + left[ready[0]], ready[0]))
            else:
                now, ended = heapq.heappop(busy)
                open_names.remove(ended)
        return (now + ratio * sum(map(self.measured.of, self.after))) / share

    def left(self):
        return f'about {minutes(self.seconds_left())} more'

    def told(self, done):
        working = [name for name in self.running if name not in self.done]
        return (f'{len(self.done)} of {len(self.names)} crates proved' + (f' ({", ".join(done)})' if done else '') +
                (f', working on {", ".join(working)}' if working else ''))

    def spent(self):
        total = sum(map(self.taken, self.names))
        return f'in {minutes(time.monotonic() - self.begun)} with {minutes(total)} of processor time'

    def costs(self, loop):
        """What was measured in this run."""
        return Costs(loop, {name: self.taken(name) for name in self.names if name not in self.kept})

#!/usr/bin/env python3
"""A plain model of the engine, beside the events that crates/random_events draws.

The program prints a line for each event with what the engine's core replied. This script takes the same events in turn,
in lists and dictionaries by the table of docs/ENGINE.md, and compares each reply. It also sees that each event was one that
its seat may make, and that every kind of event and of reply came often enough.

    crates/random_events/out/random_events each | python3 bench/plain_engine.py crates/random_events/stdout

The file has what the program prints with no word: of each core the sizes, and what it tells of itself at the end. With the
word --write in place of a file's name the model writes these lines itself.
"""

import sys
from collections import Counter

PIXEL_BYTES = {"Argb8888": 4, "Rgb565": 2, "Alpha8": 1}
PRIORITIES = ["Immediate", "High", "Normal", "Low"]
MOST_ITEMS = 1024
MOST_GROUPS = 2048


class Pool:
    """Groups from head to tail, each with its size, its config, and its bitmaps in order of adding."""

    def __init__(self, maximum):
        self.maximum = maximum
        self.groups = []

    def size(self):
        return sum(size * len(numbers) for size, _, numbers in self.groups)

    def count(self):
        return sum(len(numbers) for _, _, numbers in self.groups)

    def group(self, size, config):
        """The group of this size and config, which is made at the tail where there is none."""
        for group in self.groups:
            if group[0] == size and group[1] == config:
                return group
        if len(self.groups) == MOST_GROUPS:
            empty = [i for i, group in enumerate(self.groups) if not group[2]]
            del self.groups[empty[-1]]
        self.groups.append((size, config, []))
        return self.groups[-1]

    def evict(self, room):
        while self.size() > room or self.count() > MOST_ITEMS:
            numbers = self.groups[-1][2]
            if numbers:
                numbers.pop()
            else:
                self.groups.pop()

    def put(self, number, allocation, config):
        if allocation > self.maximum:
            return
        self.group(allocation, config)[2].append(number)
        self.evict(self.maximum)

    def get(self, wanted, config):
        """The number and the allocation of a bitmap, or None."""
        pooled = [size for size, its, numbers in self.groups if its == config and numbers]
        served = [size for size in pooled if wanted <= size <= 8 * wanted]
        size = min(served, default=wanted)
        group = self.group(size, config)
        self.groups.remove(group)
        self.groups.insert(0, group)
        return (group[2].pop(), size) if group[2] else None


class Engine:
    def __init__(self, pool, memory, quotas):
        self.pool = Pool(pool)
        self.memory = memory
        self.quotas = quotas
        self.loads = {}
        self.jobs = {}
        self.resources = {}
        self.active = set()
        self.cached = []  # the most recent first
        self.made = 0
        self.counts = Counter()
        self.begun = [0] * len(quotas)
        self.closed = False
        # what seats know: their loads and whether they were told that these are ready, and whether they were told that
        # their job is cancelled
        self.told = {}
        self.told_cancelled = set()
        self.seen = Counter()

    # ---- what there is

    def live(self, who):
        return sum(owner == who for owner, _ in self.loads)

    def in_state(self, state):
        return [name for name, now in self.loads.items() if now == state]

    def of_key(self, numbers, key):
        found = [r for r in numbers if self.resources[r]["key"] == key]
        assert len(found) <= 1, "two of one key"
        return found[0] if found else None

    def job_of(self, who):
        found = [job for job, its in self.jobs.items() if its["seat"] == who]
        assert len(found) <= 1, "two jobs on one seat"
        return found[0] if found else None

    def own_job(self, who, number):
        assert self.job_of(who) == number, "not the seat's job"
        return self.jobs[number]

    # ---- where bitmaps go

    def to_pool(self, r):
        its = self.resources.pop(r)
        self.pool.put(r, its["allocation"], its["config"])

    def cached_size(self):
        return sum(self.resources[r]["allocation"] for r in self.cached)

    def cut_cache(self, room, most=None):
        while self.cached_size() > room or (most is not None and len(self.cached) > most):
            self.seen["cached resource goes to the pool"] += 1
            self.to_pool(self.cached.pop())

    def to_cache(self, r):
        its = self.resources[r]
        if its["allocation"] >= self.memory:
            self.seen["too large for the memory cache"] += 1
            self.to_pool(r)
            return
        older = self.of_key(self.cached, its["key"])
        if older is not None:
            self.seen["older one of the key leaves the memory cache"] += 1
            self.cached.remove(older)
            self.to_pool(older)
        self.cached.insert(0, r)
        self.cut_cache(self.memory, MOST_ITEMS)

    # ---- events, each with its reply

    def load(self, who, url, width, priority, skip, cached):
        key = (url, width)
        skip = skip == "true"
        if self.live(who) == self.quotas[who]:
            return "Full"
        name = (who, self.begun[who])
        self.begun[who] += 1
        self.counts["loads"] += 1
        self.told[name] = False
        found = None if skip else self.of_key(self.active, key)
        if found is not None:
            self.counts["active"] += 1
        elif not skip:
            found = self.of_key(self.cached, key)
            if found is not None:
                self.cached.remove(found)
                self.active.add(found)
                self.counts["memory"] += 1
        if found is not None:
            self.loads[name] = ("Ready", found)
            self.told[name] = True
            return "Ready"
        for number, job in self.jobs.items():
            if (job["key"], job["cached"], job["cancelled"]) == (key, cached, False):
                self.counts["joined"] += 1
                self.loads[name] = ("Waiting", number)
                return f"Joined {number}"
        number = self.counts["started"]
        self.counts["started"] += 1
        self.jobs[number] = {
            "key": key, "cached": cached, "skip": skip, "priority": priority, "seat": None,
            "cancelled": False, "takes": 0, "out": {},
        }
        self.loads[name] = ("Waiting", number)
        return f"Started {number}"

    def collect(self, who, number):
        assert (who, number) in self.told, "not the seat's load"
        state, value = self.loads[who, number]
        if state == "Ready":
            self.told[who, number] = True
            return "Ready"
        return f"NotYet {value}" if state == "Waiting" else f"Failed {value}"

    def shown(self, who, number):
        assert self.told[who, number], "the seat was not told that it is ready"
        return self.resources[self.loads[who, number][1]]

    def look(self, who, number):
        its = self.shown(who, number)
        return f"Shape {its['width']} {its['height']} {its['config']} {len(its['bytes'])}"

    def read(self, who, number, at):
        return f"Piece {self.shown(who, number)['bytes'][at:at + 4096].hex()}"

    def release(self, who, number):
        assert (who, number) in self.told, "not the seat's load"
        del self.told[who, number]
        state = self.loads.pop((who, number))
        if state[0] == "Waiting" and not self.in_state(state):
            if self.jobs[state[1]]["seat"] is None:
                self.seen["queued job goes"] += 1
                del self.jobs[state[1]]
            else:
                self.seen["running job is cancelled"] += 1
                self.jobs[state[1]]["cancelled"] = True
        if state[0] == "Ready" and not self.in_state(state):
            self.let_go(state[1])
        return "Done"

    def let_go(self, r):
        if r not in self.active and self.resources[r]["cacheable"]:
            self.seen["replaced resource is let go"] += 1
        self.active.discard(r)
        if self.resources[r]["cacheable"]:
            self.to_cache(r)
        else:
            self.to_pool(r)

    def next_job(self, who):
        assert self.job_of(who) is None, "the seat has a job"
        if self.closed:
            return "Closed"
        queued = [number for number, job in self.jobs.items() if job["seat"] is None]
        if not queued:
            return "Idle"
        number = min(queued, key=lambda n: (PRIORITIES.index(self.jobs[n]["priority"]), n))
        job = self.jobs[number]
        job["seat"] = who
        self.told_cancelled.discard(who)
        url, width = job["key"]
        skip = "true" if job["skip"] else "false"
        return f"Job {number} {url} {width} {job['priority']} {skip} {job['cached']}"

    def take(self, who, number, width, height, config):
        job = self.own_job(who, number)
        assert job["takes"] < 2 and width >= 1 and height >= 1, "not a take that the job may make"
        wanted = width * height * PIXEL_BYTES[config]
        found = self.pool.get(wanted, config)
        if found is None:
            found = (self.made, wanted)
            self.made += 1
        else:
            self.counts["reused"] += 1
            if found[1] > wanted:
                self.seen["larger bitmap is used again"] += 1
        self.counts["takes"] += 1
        job["takes"] += 1
        job["out"][found[0]] = (found[1], width, height, config)
        if len(job["out"]) == 2:
            self.seen["job has two bitmaps"] += 1
        return f"Taken {found[0]} {found[1]}"

    def give_back(self, who, number, bitmap):
        allocation, _, _, config = self.own_job(who, number)["out"].pop(bitmap)
        self.pool.put(bitmap, allocation, config)
        return "Done"

    def finish(self, who, number, bitmap, pixels):
        job = self.own_job(who, number)
        (lent, (allocation, width, height, config)), = job["out"].items()
        assert lent == bitmap and len(pixels) == width * height * PIXEL_BYTES[config], "another bitmap"
        del self.jobs[number]
        if job["cancelled"]:
            self.pool.put(bitmap, allocation, config)
            return "Discarded"
        if not job["skip"]:
            other = self.of_key(self.active, job["key"])
            if other is not None:
                self.seen["active resource is replaced"] += 1
                self.active.remove(other)
            self.active.add(bitmap)
        self.resources[bitmap] = {
            "key": job["key"], "cacheable": not job["skip"], "allocation": allocation,
            "width": width, "height": height, "config": config, "bytes": pixels,
        }
        for name in self.in_state(("Waiting", number)):
            self.loads[name] = ("Ready", bitmap)
        return "Done"

    def fail(self, who, number, cause):
        assert not self.own_job(who, number)["out"], "the job has a bitmap"
        del self.jobs[number]
        for name in self.in_state(("Waiting", number)):
            self.loads[name] = ("Failed", cause)
        return "Done"

    def quit(self, who, number):
        assert not self.own_job(who, number)["out"], "the job has a bitmap"
        assert who in self.told_cancelled, "the seat was not told that its job is cancelled"
        del self.jobs[number]
        return "Done"

    def is_cancelled(self, who, number):
        if self.own_job(who, number)["cancelled"]:
            self.told_cancelled.add(who)
            return "Cancelled true"
        return "Cancelled false"

    def trim(self, level):
        if level >= 40:
            memory, pool = 0, 0
        elif level >= 20 or level == 15:
            memory, pool = self.memory // 2, self.pool.maximum // 2
        else:
            return "Done"
        self.cut_cache(memory)
        self.pool.evict(pool)
        return "Done"

    def totals(self):
        decoding = sum(len(job["out"]) for job in self.jobs.values())
        held = len({r for state, r in self.loads.values() if state == "Ready"})
        assert held + len(self.cached) == len(self.resources), "a resource is neither held nor cached"
        places = [decoding, held, len(self.cached), self.pool.count()]
        recycled = self.made - sum(places)
        names = ["loads", "active", "memory", "joined", "started", "takes", "reused"]
        numbers = [self.counts[name] for name in names] + [self.made] + places + [recycled]
        if recycled:
            self.seen["bitmaps are recycled"] += 1
        return "Totals " + " ".join(map(str, numbers))

    def answer(self, who, name, words):
        """What the engine replies to an event of a seat, as it is printed."""
        numbers = [int(word) for word in words if word.isdigit()]
        if name == "Load":
            return self.load(who, words[0], words[1], *words[2:])
        if name == "Take":
            return self.take(who, *numbers, words[3])
        if name == "Finish":
            return self.finish(who, int(words[0]), int(words[1]), bytes.fromhex(words[2]))
        if name == "Fail":
            return self.fail(who, int(words[0]), words[1])
        if name == "Trim":
            return self.trim(*numbers)
        if name == "Close":
            self.closed = True
            return "Done"
        if name == "Totals":
            return self.totals()
        own = {
            "Collect": self.collect, "Look": self.look, "Read": self.read, "Release": self.release,
            "NextJob": self.next_job, "GiveBack": self.give_back, "Quit": self.quit,
            "IsCancelled": self.is_cancelled,
        }
        return own[name](who, *numbers)


# What a run has to have at least so often.
EVENTS = ["Load", "Collect", "Look", "Read", "Release", "NextJob", "Take", "GiveBack", "Finish", "Fail", "Quit",
          "IsCancelled", "Trim", "Close", "Totals"]
REPLIES = ["Full", "Ready", "Joined", "Started", "NotYet", "Failed", "Shape", "Piece", "Closed", "Idle", "Job", "Taken",
           "Discarded", "Cancelled", "Totals", "Done"]
MOMENTS = ["cached resource goes to the pool", "too large for the memory cache",
           "older one of the key leaves the memory cache", "queued job goes", "running job is cancelled",
           "replaced resource is let go", "active resource is replaced", "larger bitmap is used again",
           "job has two bitmaps", "bitmaps are recycled"]


def main():
    engine, came, ends = None, Counter(), []
    for line in sys.stdin:
        line = line.rstrip("\n")
        if line.startswith("Core "):
            pool, memory, *quotas = map(int, line.split()[1:])
            engine = Engine(pool, memory, quotas)
            ends.append(line)
            continue
        if line.startswith("Totals "):
            if line != engine.totals():
                sys.exit(f"at the end: {line}\nthe model has: {engine.totals()}")
            came.update(engine.seen)
            ends.append(line)
            continue
        event, reply = line.split(": ")
        who, name, *words = event.split()
        wanted = engine.answer(int(who), name, words)
        if reply != wanted:
            sys.exit(f"event {came['events'] + 1}: {line}\nthe model answers: {wanted}")
        came.update(["events", name + " event", reply.split()[0] + " reply"])
    wanted = {name + " event": 20 for name in EVENTS} | {name + " reply": 20 for name in REPLIES}
    wanted |= {name: 20 for name in MOMENTS} | {"events": 100_000}
    few = [f"{name}: {came[name]}" for name in wanted if came[name] < wanted[name]]
    if few:
        sys.exit("too few: " + ", ".join(few))
    if sys.argv[1:] == ["--write"]:
        print("\n".join(ends))
        return
    with open(sys.argv[1], encoding="ascii") as file:
        if file.read().split("\n")[:-1] != ends:
            sys.exit("the ends are not those of the file")
    print(f"{came['events']} random events: the core and the plain model answer the same")


main()

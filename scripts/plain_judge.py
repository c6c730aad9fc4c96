"""A plain judge of stories, for scripts/judge-stories: the rules of docs/MANAGER.md and the choices of docs/POLICIES.md
once more, in another language and by other means than those of the programs. `Setting` reads the text of a setting, and
`verdict` says of the lines of a story in it where it first goes wrong.

Sets of chunks are numbers whose bits are the chunks.
"""
import re

# What may be said of a story: it is right, it ends too early, or a line is no entry's, breaks a rule, or takes a choice
# than which another one was better.
LEGAL, OPEN, NO_ENTRY, RULE, CHOICE = "legal", "isn't over", "is no entry", "may not come", "was better"
# The greatest numbers of an entry, and of a count of faults.
WORD, COUNT = 2**32 - 1, 2**64 - 1
FORMS = {
    kind: re.compile(rf"{kind}{' (0|[1-9][0-9]*)' * count}")
    for kind, count in (("register", 2), ("plan", 3), ("evict", 2), ("fill", 3), ("filled", 3), ("deliver", 3),
                        ("release", 3), ("stop", 2), ("end", 2))
}
NUMBER = "(0|[1-9][0-9]*)"
FAILED = re.compile(f"failed {NUMBER} {NUMBER} {NUMBER} (fault|damage) {NUMBER}(?: {NUMBER})?")


def entry_of(line):
    """The entry of a line: its kind and its numbers, or None where it is no entry's."""
    text = line.decode("latin-1")
    kind = text.split(" ")[0]
    if kind == "failed":
        return failed_of(text)
    found = FORMS[kind].fullmatch(text) if kind in FORMS else None
    numbers = [int(it) for it in found.groups()] if found else None
    return (kind, *numbers) if found and max(numbers) <= WORD else None


def failed_of(text):
    found = FAILED.fullmatch(text)
    if not found:
        return None
    numbers, why, first, second = [int(it) for it in found.groups()[:3]], found[4], int(found[5]), found[6]
    if max(numbers) > WORD or (why == "fault") != (second is not None):
        return None
    if why == "damage":
        return ("failed", *numbers, None) if first <= WORD else None
    return ("failed", *numbers, (first, int(second))) if max(first, int(second)) <= COUNT else None


def bits(chunks):
    return sum(1 << c for c in chunks)


def count(chunks):
    return bin(chunks).count("1")


def members(chunks):
    return [c for c in range(chunks.bit_length()) if chunks >> c & 1]


class Need:
    """What a query asks for: chunks, the groups that it reads of each, and the worker that runs it."""

    def __init__(self, worker, chunks, columns, groups):
        self.worker, self.chunks = worker, chunks
        self.reads = frozenset(columns if groups > 1 else (0,))


class Setting:
    """What a story is judged in, read from its text."""

    def __init__(self, text):
        head, *lines = text.decode("ascii").split("\n")[:-1]
        words = head.split(" ")
        self.workers, self.frames, self.chunks, self.groups = (int(words[at]) for at in (1, 3, 5, 7))
        self.policy, self.needs = words[9], {}
        for line in lines:
            _, query, _, worker, _, chunks, _, columns = line.split(" ")
            wanted = bits(map(int, chunks.split(","))) if chunks != "-" else 0
            self.needs[int(query)] = Need(int(worker), wanted, map(int, columns.split(",")), self.groups)

    def deal(self, entries):
        """Has each query run by the worker that registers it first, if there is such a worker."""
        dealt = set()
        for entry in entries:
            if entry and entry[0] == "register" and entry[2] not in dealt:
                dealt.add(entry[2])
                if entry[2] in self.needs and entry[1] < self.workers:
                    self.needs[entry[2]].worker = entry[1]


class Load:
    """The load underway: who loads which chunk for which query, its missing pieces, their frames, and those filled."""

    def __init__(self, worker, query, chunk, missing):
        self.worker, self.query, self.chunk, self.missing = worker, query, chunk, missing
        self.begun, self.filled = {}, set()


class Story:
    """What the entries so far say, and what may come next."""

    def __init__(self, setting):
        self.setting, self.entries, self.faults = setting, 0, 0
        self.left = {q: need.chunks for q, need in setting.needs.items()}
        self.active, self.seen, self.over, self.since = set(), set(), set(), {}
        self.frame, self.there = {}, [0] * setting.groups
        self.load, self.held = None, {}
        self.last_load, self.used, self.last_delivery, self.starts = 0, [], 0, {}

    # ---- what is seen

    def whole(self, query):
        """The chunks of which all that the query reads is in frames."""
        chunks = (1 << self.setting.chunks) - 1
        for group in self.setting.needs[query].reads:
            chunks &= self.there[group]
        return chunks

    def available(self, query):
        return self.left[query] & self.whole(query)

    def targets(self, query):
        return self.left[query] & ~self.whole(query)

    def is_starved(self, query):
        return query in self.active and count(self.available(query)) < 2

    def starved(self):
        return [q for q in self.active if self.is_starved(q)]

    def cached(self, chunk):
        return sum(there >> chunk & 1 for there in self.there)

    def missing(self, query, chunk):
        """The pieces of the chunk that the query reads and no frame has."""
        first = chunk * self.setting.groups
        return [first + group for group in self.setting.needs[query].reads if not self.there[group] >> chunk & 1]

    def free(self):
        begun = set(self.load.begun.values()) if self.load else set()
        return self.setting.frames - len(self.frame.keys() | begun)

    def is_idle(self, worker):
        return worker not in self.held and (self.load is None or self.load.worker != worker)

    def is_active_on(self, query, worker):
        return query in self.active and self.setting.needs[query].worker == worker

    def victims(self):
        chunks = 0
        for there in self.there:
            chunks |= there
        for query in self.starved():
            chunks &= ~self.available(query)
        for _, chunk in self.held.values():
            chunks &= ~(1 << chunk)
        return members(chunks & ~(1 << self.load.chunk)) if self.load else members(chunks)

    # ---- what may come next

    def may_come(self, entry):
        """Whether the entry may follow."""
        return getattr(self, f"may_{entry[0]}")(*entry[1:])

    def may_register(self, worker, query):
        need = self.setting.needs.get(query)
        alone = not any(self.setting.needs[q].worker == worker for q in self.active)
        return need is not None and query not in self.seen and need.worker == worker and alone and self.is_idle(worker)

    def may_plan(self, worker, query, chunk):
        free = worker < self.setting.workers and worker not in self.held and self.load is None
        return free and self.is_starved(query) and bool(self.targets(query) >> chunk & 1)

    def may_evict(self, worker, chunk):
        load = self.load
        if load is None or load.worker != worker or load.begun:
            return False
        return self.free() < len(load.missing) and chunk in self.victims()

    def may_fill(self, worker, frame, piece):
        load = self.load
        if load is None or load.worker != worker or len(load.missing) > self.free() + len(load.begun):
            return False
        free = frame < self.setting.frames and frame not in self.frame and frame not in load.begun.values()
        return free and piece in load.missing and piece not in load.begun

    def may_end_read(self, worker, piece):
        """Whether a read of the piece that the worker began may end."""
        load = self.load
        if load is None or load.worker != worker or len(load.begun) < len(load.missing):
            return False
        return piece in load.begun and piece not in load.filled

    def may_filled(self, worker, frame, piece):
        return self.may_end_read(worker, piece) and self.load.begun[piece] == frame

    def may_failed(self, worker, query, piece, fault):
        rose = fault is None or self.faults <= fault[0] and (fault[0] < fault[1] or fault == (COUNT, COUNT))
        return self.may_end_read(worker, piece) and self.load.query == query and rose

    def may_deliver(self, worker, query, chunk):
        return self.may_stop(worker, query) and bool(self.available(query) >> chunk & 1)

    def may_release(self, worker, query, chunk):
        return self.held.get(worker) == (query, chunk)

    def may_stop(self, worker, query):
        return self.is_active_on(query, worker) and self.is_idle(worker)

    def may_end(self, worker, query):
        return self.may_stop(worker, query) and self.left[query] == 0

    def is_whole(self):
        return self.over == set(self.setting.needs) and self.load is None and not self.held

    # ---- what is noted

    def note(self, entry):
        """One entry more, which may come."""
        getattr(self, f"note_{entry[0]}")(*entry[1:])
        self.entries += 1

    def note_register(self, worker, query):
        self.seen.add(query)
        self.active.add(query)
        self.since[query] = self.entries + 1

    def note_plan(self, worker, query, chunk):
        self.load = Load(worker, query, chunk, self.missing(query, chunk))
        self.last_load = (chunk + 1) % self.setting.chunks
        self.use(chunk)
        self.serve(query)

    def note_evict(self, worker, chunk):
        self.frame = {f: piece for f, piece in self.frame.items() if piece // self.setting.groups != chunk}
        self.there = [there & ~(1 << chunk) for there in self.there]

    def note_fill(self, worker, frame, piece):
        self.load.begun[piece] = frame

    def note_filled(self, worker, frame, piece):
        self.frame[frame] = piece
        self.there[piece % self.setting.groups] |= 1 << piece // self.setting.groups
        self.load.filled.add(piece)
        if len(self.load.filled) == len(self.load.missing):
            self.load = None

    def note_failed(self, worker, query, piece, fault):
        self.load = None
        self.faults = fault[1] if fault else self.faults
        self.give_up(query)

    def note_deliver(self, worker, query, chunk):
        self.left[query] &= ~(1 << chunk)
        self.held[worker] = query, chunk
        self.use(chunk)
        self.serve(query)
        self.last_delivery = chunk

    def note_release(self, worker, query, chunk):
        del self.held[worker]
        self.since[query] = self.entries + 1

    def note_stop(self, worker, query):
        self.give_up(query)

    def note_end(self, worker, query):
        self.give_up(query)

    def give_up(self, query):
        self.active.discard(query)
        self.over.add(query)
        self.left[query] = 0

    def use(self, chunk):
        self.used = [c for c in self.used if c != chunk] + [chunk]

    def serve(self, query):
        self.starts.setdefault(query, self.last_delivery)


class Chooser:
    """Which of what may come next a policy chooses: each choice by how bad a candidate is, the least being chosen."""

    def __init__(self, story):
        self.story, self.policy = story, story.setting.policy

    def is_chosen(self, entry):
        """Whether the entry, which may come, takes a choice of the policy."""
        if self.policy == "any":
            return True
        if entry[0] == "plan":
            return self.is_least(self.triggers(), self.of_trigger, entry[2]) and self.is_least(
                members(self.story.targets(entry[2])), lambda c: self.of_load(entry[2], c), entry[3])
        if entry[0] == "deliver":
            ready = members(self.story.available(entry[2]))
            return self.is_least(ready, lambda c: self.of_delivery(entry[2], c), entry[3])
        return entry[0] != "evict" or self.is_least(self.story.victims(), self.of_victim, entry[2])

    @staticmethod
    def is_least(candidates, how_bad, chosen):
        worst = how_bad(chosen)
        return not any(how_bad(it) < worst for it in candidates)

    def triggers(self):
        return [q for q in self.story.starved() if self.story.targets(q)]

    def waiting(self, query):
        story = self.story
        if story.held.get(story.setting.needs[query].worker, (None,))[0] == query:
            return 0
        return story.entries - story.since[query]

    def steps(self, start, chunk):
        return (chunk - start) % self.story.setting.chunks

    def start(self, query):
        return self.story.starts.get(query, self.story.last_delivery)

    def needing(self, chunk, queries):
        return [q for q in queries if self.story.left[q] >> chunk & 1]

    def sharing(self, query, chunk, queries):
        needs = self.story.setting.needs
        return len([q for q in self.needing(chunk, queries) if needs[q].reads & needs[query].reads])

    def of_trigger(self, query):
        story = self.story
        if self.policy == "relevance":
            return len(story.active) * count(story.left[query]) - self.waiting(query)
        if self.policy == "elevator":
            return min(self.steps(story.last_load, c) for c in members(story.targets(query)))
        return -self.waiting(query)

    def of_load(self, query, chunk):
        story = self.story
        if self.policy == "relevance":
            gain = 1024 * self.sharing(query, chunk, story.starved()) + self.sharing(query, chunk, story.active)
            return -Share(gain, len(story.missing(query, chunk)))
        return self.of_place(query, chunk)

    def of_delivery(self, query, chunk):
        if self.policy == "relevance":
            return -Share(self.story.cached(chunk), self.sharing(query, chunk, self.story.active))
        return self.of_place(query, chunk)

    def of_place(self, query, chunk):
        if self.policy == "elevator":
            return self.steps(self.story.last_load, chunk)
        return chunk if self.policy == "normal" else self.steps(self.start(query), chunk)

    def close(self, chunk):
        near = [self.story.available(q) for q in self.story.active]
        return len([chunks for chunks in near if chunks >> chunk & 1 and count(chunks) <= 2])

    def of_victim(self, chunk):
        story = self.story
        interested = len(self.needing(chunk, story.active))
        if self.policy == "relevance":
            return Share(1024 * self.close(chunk) + interested, story.cached(chunk))
        if self.policy == "elevator":
            return self.close(chunk), self.steps(story.last_load, chunk)
        if self.policy == "normal":
            return self.close(chunk), story.used.index(chunk) + 1 if chunk in story.used else 0
        return self.close(chunk), interested


class Share:
    """A ratio, compared without a division."""

    def __init__(self, part, whole):
        self.part, self.whole = part, whole

    def __neg__(self):
        return Share(-self.part, self.whole)

    def __lt__(self, other):
        return self.part * other.whole < other.part * self.whole


def verdict(setting, lines, known=0, free=False, dealt=False, due=False, sound=False):
    """What is said of the story, and of which line, from 1; of LEGAL that is 0, and of OPEN the line behind the last.

    The first `known` lines are known to be right. `free` leaves choices free, and `dealt` the dealing of queries to
    workers; `due` has each worker register its queries by rising number, and `sound` lets no read fail."""
    entries, setting = [entry_of(line) for line in lines], Setting(setting)
    if free:
        setting.policy = "any"
    if dealt:
        setting.deal(entries)
    story = Story(setting)
    chooser = Chooser(story)
    for number, entry in enumerate(entries, 1):
        if number > known:
            if entry is None:
                return NO_ENTRY, number
            late = due and entry[0] == "register" and is_late(story, *entry[1:])
            if not story.may_come(entry) or late or sound and entry[0] == "failed":
                return RULE, number
            if not chooser.is_chosen(entry):
                return CHOICE, number
        story.note(entry)
    return (LEGAL, 0) if story.is_whole() else (OPEN, len(lines) + 1)


def is_late(story, worker, query):
    """Whether another query of the worker is due before this one."""
    return any(q < query and q not in story.seen and need.worker == worker for q, need in story.setting.needs.items())

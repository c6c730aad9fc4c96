"""A small engine of another kind, for scripts/judge-stories: it plays the manager's rules with choices that are drawn, and
deals its queries to workers as it likes. Now and then a read fails, and a query is given up. `story_of` gives the text of a setting in which choices are free, and the lines
of a whole story in it.
"""


class Engine:
    """A buffer of frames, and what is asked for: for each query its chunks and columns."""

    def __init__(self, draw, workers, chunks, groups, needs, spare):
        self.draw, self.workers, self.chunks, self.groups, self.needs = draw, workers, chunks, groups, needs
        self.frames = [None] * ((3 * workers + 1) * groups + spare)
        self.active, self.left = {}, {query: set(need[0]) for query, need in needs.items()}
        self.waiting, self.holds, self.load, self.story, self.faults = sorted(needs), {}, None, [], 0

    def pieces(self, query, chunk):
        columns = self.needs[query][1] if self.groups > 1 else [0]
        return [chunk * self.groups + column for column in columns]

    def available(self, query):
        return [c for c in sorted(self.left[query]) if all(p in self.frames for p in self.pieces(query, c))]

    def starved(self):
        return [query for query in self.active.values() if len(self.available(query)) < 2]

    def free(self):
        begun = [frame for frame, _ in self.load["begun"]] if self.load else []
        return [f for f, piece in enumerate(self.frames) if piece is None and f not in begun]

    def say(self, *words):
        self.story.append(" ".join(map(str, words)).encode())

    def step_of_load(self):
        """The next entry of the load underway."""
        load, worker = self.load, self.load["worker"]
        begun = [piece for _, piece in load["begun"]]
        more = [p for p in load["missing"] if p not in begun]
        if more and not begun and len(self.free()) < len(more):
            fed = {c for query in self.starved() for c in self.available(query)}
            kept = fed | {c for _, c in self.holds.values()} | {load["chunk"]}
            victim = self.draw.choice([c for c in range(self.chunks) if c not in kept and self.frames_of(c)])
            for frame in self.frames_of(victim):
                self.frames[frame] = None
            self.say("evict", worker, victim)
        elif more:
            frame, piece = self.draw.choice(self.free()), self.draw.choice(more)
            load["begun"].append((frame, piece))
            self.say("fill", worker, frame, piece)
        else:
            frame, piece = self.draw.choice([it for it in load["begun"] if it[1] not in self.frames])
            if self.draw.random() < 0.02:
                self.fail(piece)
                return
            self.frames[frame] = piece
            self.say("filled", worker, frame, piece)
            if all(p in self.frames for p in begun):
                self.load = None

    def fail(self, piece):
        """The read of the piece fails, by which the load's query is given up."""
        worker, query, before = self.load["worker"], self.load["query"], self.faults + self.draw.randrange(3)
        why = ("damage", self.draw.randrange(64))
        if self.draw.random() < 0.7:
            self.faults = before + self.draw.randint(1, 3)
            why = ("fault", before, self.faults)
        self.say("failed", worker, query, piece, *why)
        self.load, self.left[query] = None, set()
        self.active = {who: q for who, q in self.active.items() if q != query}

    def frames_of(self, chunk):
        return [f for f, piece in enumerate(self.frames) if piece is not None and piece // self.groups == chunk]

    def step_of_worker(self, worker):
        """An entry of a worker that loads nothing, where it has one."""
        if worker in self.holds:
            self.say("release", worker, *self.holds.pop(worker))
        elif worker not in self.active:
            if self.waiting:
                self.active[worker] = self.waiting.pop(self.draw.randrange(len(self.waiting)))
                self.say("register", worker, self.active[worker])
        elif self.draw.random() < 0.01:
            query = self.active.pop(worker)
            self.left[query] = set()
            self.say("stop", worker, query)
        elif not self.left[self.active[worker]]:
            self.say("end", worker, self.active.pop(worker))
        elif self.load is None and self.starved() and self.draw.random() < 0.6:
            self.plan(worker)
        elif self.available(self.active[worker]):
            query = self.active[worker]
            chunk = self.draw.choice(self.available(query))
            self.left[query].remove(chunk)
            self.holds[worker] = query, chunk
            self.say("deliver", worker, query, chunk)

    def plan(self, worker):
        query = self.draw.choice(self.starved())
        targets = sorted(self.left[query] - set(self.available(query)))
        if targets:
            chunk = self.draw.choice(targets)
            missing = [p for p in self.pieces(query, chunk) if p not in self.frames]
            self.load = {"worker": worker, "query": query, "chunk": chunk, "missing": missing, "begun": []}
            self.say("plan", worker, query, chunk)

    def run(self):
        while self.waiting or self.active:
            worker = self.draw.randrange(self.workers)
            if self.load is None or self.load["worker"] != worker:
                self.step_of_worker(worker)
            elif self.draw.random() < 0.8:
                self.step_of_load()
        return self.story


def numbers(chosen):
    return ",".join(map(str, sorted(chosen))) or "-"


def story_of(draw):
    """The text of a setting, and the lines of a story in it."""
    workers, chunks, groups = draw.randint(1, 6), draw.randint(1, 12), draw.choice((1, 1, 2, 3))
    needs = {}
    for query in draw.sample(range(1, 257), draw.randint(1, 10)):
        columns = draw.sample(range(groups), draw.randint(1, groups))
        needs[query] = draw.sample(range(chunks), draw.randint(0, chunks)), columns
    engine = Engine(draw, workers, chunks, groups, needs, draw.randint(0, 4))
    head = f"workers {workers} frames {len(engine.frames)} chunks {chunks} groups {groups} policy any\n"
    lines = [f"query {q} worker 0 chunks {numbers(need[0])} columns {numbers(need[1])}\n" for q, need in needs.items()]
    return head + "".join(lines), engine.run()

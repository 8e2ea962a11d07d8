"""What the trace of a run says, by the place of each event: who built, and what became of each request of each pipeline."""
import heapq


class Bad(Exception):
    """A line that no trace has."""


class Request:
    """One request of a pipeline: when it was made, begun and finished, by whom, and when it was handed out."""

    def __init__(self, number, made, line):
        self.number, self.made, self.line = number, made, line
        self.begun = self.finished = self.handed = self.taker = None
        self.kept = False

    def end(self, last):
        return next((x for x in (self.handed, self.finished) if x is not None), last)


class Pipeline:
    """A pad, a queue or a chain, with what happened on it."""

    def __init__(self, number, shape, born, maker):
        self.number, self.shape, self.born, self.maker = number, shape, born, maker
        self.requests, self.collects, self.refused, self.held, self.masks, self.closed = [], [], [], [], [], None
        self.holding, self.told, self.front, self.collected = None, [], 0, 0

    def finish(self, at, number):
        """A queue tells each completion, a pad and a chain those that their front passes."""
        self.requests[number].finished = at
        if self.shape == "queue":
            self.told.append(self.requests[number])
            return
        while self.front < len(self.requests) and self.requests[self.front].finished is not None:
            self.told.append(self.requests[self.front])
            self.front += 1

    def hand_out(self, at, to):
        """A collect hands out all that is told up to this place."""
        for request in self.told[self.collected:to]:
            if request is not None:
                request.handed = at
        self.collects.append((at, to - self.collected))
        self.collected = max(self.collected, to)


class Run:
    """What a trace says, by the place of each event."""

    def __init__(self, lines):
        self.lines = lines
        self.words = [line.split(" ") for line in lines]
        self.split = sum(words[0] == "r" for words in self.words)
        # builds: the larval's builder, and the places of its claim and its end; marks: place, caller, whether it is the shut
        self.callers, self.pipelines, self.builds, self.marks = set(), {}, {}, []
        for at, words in enumerate(self.words):
            try:
                self.callers.add(int(words[1]))
                (self.registry if words[0] == "r" else self.board)(at, int(words[1]), words[2:])
            except (IndexError, ValueError, KeyError) as error:
                raise Bad(f"line {at + 1}: {lines[at]}") from error
        for pipeline in self.pipelines.values():
            if pipeline.holding is not None:
                pipeline.held.append((pipeline.holding, len(lines)))

    def registry(self, at, caller, words):
        if words[0] == "claim":
            self.builds[words[1]] = [caller, at, None]
        elif words[0] == "end":
            self.builds[words[1]][2] = at
        else:
            self.marks.append((at, caller, False))

    def board(self, at, caller, words):
        name, rest = words[0], words[1:]
        if name == "shut":
            self.marks.append((at, caller, True))
            return
        if name == "born":
            self.pipelines[rest[0]] = Pipeline(int(rest[0]), rest[1], at, caller)
            return
        pipeline = self.pipelines[rest[0]]
        if name == "submit":
            pipeline.requests.append(Request(int(rest[1]), at, rest[2]))
        elif name == "enq":
            self.put(pipeline, at, rest)
        elif name in ("take", "deq"):
            request = pipeline.requests[int(rest[1])]
            if name == "take" or pipeline.shape == "queue":
                request.begun, request.taker = at, caller
            if name == "deq" and rest[2] == "started":
                pipeline.told.append(None)
        elif name in ("finish", "done"):
            pipeline.finish(at, int(rest[1]))
        elif name == "mask":
            pipeline.masks.append((at, rest[1]))
        elif name == "hold":
            pipeline.holding = at if pipeline.holding is None else pipeline.holding
        elif name == "go" and pipeline.holding is not None:
            pipeline.held.append((pipeline.holding, at))
            pipeline.holding = None
        elif name == "collect":
            pipeline.hand_out(at, int(rest[1]))
        elif name == "close":
            pipeline.closed = at

    @staticmethod
    def put(pipeline, at, rest):
        if rest[3] == "ENOSPC":
            pipeline.refused.append(at)
            return
        request = Request(int(rest[4]), at, rest[1])
        request.kept = rest[3] == "EBUSY"
        pipeline.requests.append(request)


def name_of(caller):
    """What the caller of this number is called in a picture."""
    return "script" if caller == 0 else f"worker {caller}" if caller <= 16 else f"client {caller - 16}"


def rows_of(requests, last):
    """A row for each request, the first that is free when it is made, and how many rows there are."""
    free, busy, rows, many = [], [], {}, 0
    for request in requests:
        while busy and busy[0][0] < request.made:
            heapq.heappush(free, heapq.heappop(busy)[1])
        if not free:
            free.append(many)
            many += 1
        row = heapq.heappop(free)
        heapq.heappush(busy, (request.end(last), row))
        rows[request] = row
    return rows, max(1, many)

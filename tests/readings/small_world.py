"""A second reading of docs/SCHEDULES.md: a world of a few programs, evacuators and fetchers over a store that never fails, without a call of the program.

A line is taken by `step`, which tells whether it is enabled. Programs here have these instructions, as image_reading.py reads them: an `alloc` of one piece, `const`,
`chk_null` of what is no NULL, aims without an offset at a cell of that piece, `ld`, `st`, `leave` and `ret`."""


class Object:
    """Where an object is: `away`, `coming` by a mover, `here` in a frame, or `leaving` it by a mover; its holds, and whether it is clean, or has its mark."""

    __slots__ = ("place", "holds", "frame", "mover", "clean", "marked", "far")

    def __init__(self):
        self.place, self.holds, self.frame, self.mover, self.clean, self.marked, self.far = "away", 0, None, None, False, False, None

    def copy(self):
        one = Object.__new__(Object)
        for name in Object.__slots__:
            setattr(one, name, getattr(self, name))
        return one

    def in_frame(self):
        return self.place in ("here", "leaving")


class Actor:
    """A program or a mover. `mode` is what it is about; it brings `object` into `frame`, or moves `victim` out of `source`; `words` are those filled or copied."""

    __slots__ = ("mover", "mode", "object", "frame", "victim", "source", "words", "next", "registers", "aims", "held", "writes", "share")

    def __init__(self, mover, mode, share):
        self.mover, self.mode, self.share = mover, mode, share
        self.object = self.frame = self.victim = self.source = self.held = None
        self.words, self.next, self.registers, self.aims, self.writes = (), 0, {}, None, False

    def copy(self):
        one = Actor.__new__(Actor)
        for name in Actor.__slots__:
            setattr(one, name, getattr(self, name))
        one.registers = dict(self.registers)
        return one


PLAIN = [name for name in Actor.__slots__ if name != "registers"]


class World:
    def __init__(self, code, cells, programs, frames, objects, evacuators, fetchers):
        self.code, self.cells = code, cells
        self.frames = [0] * frames  # 0 of a free one
        self.held = [[0] * cells for _ in range(frames)]
        self.objects = [Object() for _ in range(objects)]
        share = objects // programs
        self.programs = [Actor(k + 1, "ready", k * share) for k in range(programs)]
        self.evacuators = [Actor(programs + k + 1, "idle", None) for k in range(evacuators)]
        self.fetchers = [Actor(programs + evacuators + k + 1, "idle", None) for k in range(fetchers)]

    def copy(self):
        one = World.__new__(World)
        one.code, one.cells, one.frames = self.code, self.cells, list(self.frames)
        one.held = [list(cells) for cells in self.held]
        one.objects = [it.copy() for it in self.objects]
        one.programs, one.evacuators, one.fetchers = ([it.copy() for it in sort] for sort in (self.programs, self.evacuators, self.fetchers))
        return one

    def key(self):
        """All that a world is, as one value."""
        objects = tuple(tuple(getattr(it, name) for name in Object.__slots__) for it in self.objects)
        actors = tuple((*(getattr(it, name) for name in PLAIN), *sorted(it.registers.items())) for it in (*self.programs, *self.evacuators, *self.fetchers))
        return tuple(self.frames), tuple(map(tuple, self.held)), objects, actors

    def step(self, line):
        """Takes the line, if it is enabled."""
        actor, verb, *numbers = line.split(" ") if " " in line else (line, "next")
        sort = {"p": self.programs, "e": self.evacuators, "f": self.fetchers}[actor[0]]
        numbers = [int(number) for number in numbers]
        if int(actor[1:]) >= len(sort) or not self.in_range(verb, numbers):
            return False
        return {"p": self.program, "e": self.evacuator, "f": self.fetcher}[actor[0]](sort[int(actor[1:])], verb, numbers)

    def in_range(self, verb, numbers):
        frame = verb in ("look", "claim", "mark", "leave") and numbers[-1] >= len(self.frames)
        return not frame and not (verb in ("mark", "leave", "begin") and numbers[0] >= len(self.objects))

    def running(self):
        return sum(program.mode not in ("stopped", "wants") for program in self.programs)

    # what all actors do

    def claim(self, actor, frame):
        if self.frames[frame] == 0:
            self.frames[frame] = actor.object + 1
            actor.frame, actor.words = frame, ()
            actor.mode = "filling" if self.objects[actor.object].far is None else "getting"
        return True

    def mark(self, actor, number, frame):
        it = self.objects[number]
        if it.place == "here" and it.frame == frame and it.holds == 0 and not it.clean:
            it.place, it.marked, it.mover = "leaving", True, actor.mover
            actor.victim, actor.source, actor.words, actor.mode = number, frame, (), "copying"
        return True

    def leave(self, actor, number, frame):
        it = self.objects[number]
        if it.place == "here" and it.frame == frame and it.holds == 0 and it.clean:
            it.place, it.frame, it.clean = "away", None, False
            actor.source, actor.mode = frame, "releasing"
        return True

    def bring(self, actor):
        """The get, a cell that is filled, or the arrival, after which it is true that all is done."""
        it = self.objects[actor.object]
        if actor.mode == "getting":
            actor.mode = "filling"
        elif len(actor.words) < self.cells:
            at = len(actor.words)
            self.held[actor.frame][at] = 0 if it.far is None else it.far[at]
            actor.words += (self.held[actor.frame][at],)
        else:
            it.place, it.frame, it.mover, it.clean = "here", actor.frame, None, True
            actor.frame = None
            return True
        return False

    def move_out(self, actor, back):
        """A copy of a cell, the put, the commit or the abort, or the frame that is given back."""
        it = None if actor.victim is None else self.objects[actor.victim]
        if actor.mode == "copying" and len(actor.words) < self.cells:
            actor.words += (self.held[actor.source][len(actor.words)],)
        elif actor.mode == "copying":
            it.far, actor.mode = actor.words, "committing"
        elif actor.mode == "committing":
            if it.marked and it.holds == 0:
                it.place, it.frame, it.mover, it.marked = "away", None, None, False
                actor.victim, actor.mode = None, "releasing"
            else:
                actor.mode = "aborting"
        elif actor.mode == "aborting":
            it.place, it.marked, it.mover = "here", False, None
            actor.victim, actor.source, actor.mode = None, None, back
        else:
            self.frames[actor.source] = 0
            actor.source, actor.mode = None, back
        return True

    # evacuators and fetchers

    def evacuator(self, actor, verb, numbers):
        if actor.mode == "idle":
            return self.move(actor, verb, numbers)
        return verb == "next" and self.move_out(actor, "idle")

    def move(self, actor, verb, numbers):
        if verb == "mark":
            return self.mark(actor, *numbers)
        if verb == "leave":
            return self.leave(actor, *numbers)
        return verb == "look"

    def fetcher(self, actor, verb, numbers):
        if actor.mode == "idle":
            return verb == "begin" and self.fetch(actor, numbers[0])
        if actor.mode == "seeking" and verb == "claim":
            return self.claim(actor, numbers[0])
        if verb != "next":
            return False
        if actor.mode == "seeking":
            self.objects[actor.object].place, self.objects[actor.object].mover = "away", None
            actor.mode = "idle"
        elif self.bring(actor):
            actor.mode = "idle"
        return True

    def fetch(self, actor, number):
        it = self.objects[number]
        if it.place == "away" and it.holds == 0:
            it.place, it.mover = "coming", actor.mover
            actor.object, actor.mode = number, "seeking"
        return True

    # programs

    def program(self, actor, verb, numbers):
        if actor.mode == "seeking":
            return self.claim(actor, numbers[0]) if verb == "claim" else self.move(actor, verb, numbers)
        if verb != "next" or actor.mode in ("stopped", "wants"):
            return False
        if actor.mode == "ready":
            self.instruction(actor, *self.code[actor.next])
        elif actor.mode == "missing":
            self.try_begin(actor)
        elif actor.mode in ("getting", "filling"):
            if self.bring(actor):
                self.complete(actor)
        else:
            self.move_out(actor, "seeking")
        return True

    def complete(self, actor):
        actor.mode = "ready"
        actor.next += 1

    def try_begin(self, actor):
        it = self.objects[actor.held]
        if it.place == "away":
            it.place, it.mover = "coming", actor.mover
            actor.object, actor.mode = actor.held, "seeking"
        elif it.in_frame():
            self.complete(actor)

    def instruction(self, actor, code, *rest):
        if code in (0x33, 0x34, 0x35, 0x36):
            self.reach(actor, code, rest)
            return
        if code == 0x40:
            actor.registers[rest[0]] = actor.share
        elif code == 0x01:
            actor.registers[rest[0]] = rest[1]
        self.complete(actor)
        if code == 0x62:
            actor.mode = "stopped"

    def reach(self, actor, code, rest):
        """An aim, a load, a store or a `leave` of the one scope."""
        it = None if actor.held is None else self.objects[actor.held]
        if code == 0x33 and it is None:
            self.open(actor, actor.registers[rest[1]], rest[3])
            return
        if code == 0x33:
            actor.aims = rest[3]
        elif code == 0x34:
            actor.registers[rest[0]] = self.held[it.frame][actor.aims]
        elif code == 0x36 and it is not None:
            it.holds -= 1
            actor.held, actor.writes = None, False
        elif code == 0x35 and not actor.writes:
            it.marked = it.clean = False
            actor.writes = True
            return
        elif code == 0x35:
            self.held[it.frame][actor.aims] = actor.registers[rest[1]]
        self.complete(actor)

    def open(self, actor, number, cell):
        it = self.objects[number]
        it.holds += 1
        actor.held, actor.aims = number, cell
        if it.in_frame():
            self.complete(actor)
        else:
            actor.mode = "missing"

"""Drives `guest debug` behind a debugger for people or for gdb: its lines and replies as calls, and what the guest writes as it comes.

What the guest writes is seen at its calls of the machine: each is a point of its own, at which the registers tell what is written. `guest debug`
goes back by itself, also to the last place where a point stops.
"""
import contextlib
import os
import re
import shutil
import sys
import tempfile
import time

from guest_image import ECALL, TOP, Image
from guest_record import Record
from guest_turns import BY_TURNS, HARTS, Driven, Interrupted, Refused, Told, Turns, line_of, never


WRITE, PAGE = 64, 4096
MOST_POINTS = 32
USER_POINTS = 8    # as many are left to the user at least
MOST_WATCHED = 16
PIECE = 500000    # steps, between which the caller may interrupt
SINGLE_PIECE = 64    # the same of steps that are taken one by one
NEAR = 500000    # steps that are looked at first for a point on the way back
LOOK_SECONDS = 0.2    # the next look is longer where one has taken less: between two looks the caller may interrupt
MOST_BACK = 2**32 - 1    # steps of one line
TRAPS = {
    0: "a jump to an address that is no multiple of 4", 2: "a word that is no instruction of this machine", 3: "an ebreak",
    4: "a load from an address that is no multiple of its width", 6: "a store to an address that is no multiple of its width",
    12: "a jump to where no page may be executed", 13: "a load from where no page may be read",
    15: "a store to where no page may be written",
}
WITH_FRAMES = "the way back is open only on flat memory: leave --frames away"


class Stop:
    """Why the program stopped: `break`, `watch`, `limit`, `interrupt`, `ended` or `absent`; `record` at the end of a record, `back` where a way
    back has led, and `begin` where that is the beginning; at whose point, and after how many steps. The hart is the one that stands at the
    break or wrote; else the one whose turn it is."""

    def __init__(self, why, hart, steps=0, address=None):
        self.why, self.hart, self.steps, self.address = why, hart, steps, address


class Guest:
    """A guest that is debugged. `told` takes what it writes. With a record the harts take the turns that it tells of."""

    def __init__(self, image, frames=None, given=None, told=lambda content: None, record=None):
        self.told, self.name, self.folder = told, image, tempfile.TemporaryDirectory()
        self.given = given = self.file_of(given) if given else None
        self.record = Record(record) if record else None
        if self.record:
            self.record.test(image, given)
            if frames is not None:
                raise ValueError("a record is replayed on flat memory: leave --frames away")
        self.goes_back = frames is None
        self.run = Driven(command(image, given, frames))
        self.turns = self.record.turns if self.record else Turns()
        self.points = {}     # the user's: number of the point by ("break", address) or ("watch", address, length)
        self.calls = {}      # ours, by address
        self.addresses = {}  # by the number of a point
        self.steps, self.has_ended, self.turn = 0, False, 0
        self.furthest = 0    # the step after which something was written that was told last
        self.stood = None    # which hart was told to stand at a break, and after how many steps
        self.ask("run 0")    # where the image or the input is refused, it is told here
        self.image = Image(image)
        sites = self.image.ecalls()
        self.sees_output = len(sites) <= MOST_POINTS - USER_POINTS
        for address in sites if self.sees_output else []:
            self.calls[address] = self.add(f"break {address}")

    def file_of(self, given):
        """The name of a file with the input: a copy, where it is a pipe or a terminal, which the program that is driven does not have."""
        name = os.path.realpath(given)
        if os.path.isfile(name):
            return name
        with open(given, "rb") as it, open(f"{self.folder.name}/given", "wb") as to:
            shutil.copyfileobj(it, to)
        return to.name

    def ask(self, line, lines=1):
        return self.run.ask(line, lines)

    def close(self):
        self.run.close()

    # ---- looks

    def regs(self, hart):
        """x0 to x31 and pc of a hart."""
        told = [int(line.split()[1], 16) for line in self.ask(f"regs {hart}", 32)]
        return [0, *told[1:], told[0]]

    def is_live(self, hart):
        return self.ask(f"live {hart}") == "live"

    def harts(self):
        """The harts that were started and have not ended. One at least is live always."""
        return [hart for hart in range(HARTS) if self.is_live(hart)]

    def memory(self, address, count):
        """Bytes from an address on: as many as there are before the first that has no page."""
        got = b""
        while len(got) < count and address + len(got) < 1 << 32:
            here = address + len(got)
            some = min(count - len(got), PAGE - here % PAGE)
            try:
                got += bytes.fromhex(self.ask(f"mem {here} {some}"))
            except Refused:
                break
        return got

    def word(self, address):
        content = self.memory(address, 4)
        return int.from_bytes(content, "little") if len(content) == 4 else None

    def ending(self):
        """How the program ended: ("exited", status), ("trap", cause, hart, pc, value) or ("killed", words); None where it goes on."""
        told = self.ask("end")
        self.has_ended = told != "goes on"
        return parse_end(told) if self.has_ended else None

    # ---- points

    def add(self, line):
        number = int(self.ask(line).split()[1])
        self.addresses[number] = int(line.split()[1])
        return number

    def add_point(self, *point):
        """A point of the user: ("break", address) or ("watch", address, length)."""
        if point in self.points:
            return
        try:
            self.points[point] = self.add(" ".join(map(str, point)))
        except Refused as refused:
            raise Refused(1, f"there are {MOST_POINTS} points already: {self.room()}") if refused.number == 1 else refused from None

    def room(self):
        """What the points are there for."""
        return f"{len(self.calls)} of {MOST_POINTS} points show what the program writes, {MOST_POINTS - len(self.calls)} are for breaks and watches"

    def remove_point(self, *point):
        if point in self.points:
            self.ask(f"remove {self.points.pop(point)}")

    def is_break(self, address):
        """Whether the user has a break there."""
        return ("break", address) in self.points

    def watched(self):
        """The bytes of each watch as they are now."""
        return {it: self.memory(it[1], it[2]) for it in self.points if it[0] == "watch"}

    # ---- steps

    def call_at(self, x):
        """What the next instruction of a hart with these registers is to write, if it is a call to write: the address and the length."""
        return (x[11], x[12]) if self.image.word(x[32]) == ECALL and x[17] == WRITE else None

    def tell(self, hart, call):
        """What was written by a call that is done: as many bytes as it answered. What was told before is not told again."""
        if call is None or self.steps <= self.furthest:
            return
        self.furthest = self.steps
        count = self.regs(hart)[10]
        if 0 < count <= call[1]:
            self.told(self.memory(call[0], count))

    def moved(self, hart, count):
        """So many steps were taken. What the run did from here on before, by other turns, is forgotten."""
        if self.goes_back and not self.record:
            other = self.turns.take(self.steps, hart, count)
            if other is not None:
                self.furthest = min(self.furthest, other)
        self.steps += count
        if self.record:
            self.turn = self.next_hart(hart)

    def piece(self, limit, hart=None, heeds=()):
        """Steps by turns, or of one hart alone, up to a point, ours or the user's, or so many. A record's turns end a piece too."""
        if self.record:
            return self.piece_of_record(limit, heeds)
        runs = BY_TURNS if hart is None else hart
        told = Told(self.ask(line_of(runs, limit)))
        self.turn = told.turn
        self.moved(runs, told.steps)
        return self.stop_of(told, told.last if told.why in ("watch", "ended") or hart is not None else self.turn)

    def piece_of_record(self, limit, heeds):
        """The same of a record. A hart stands at a break where it has its turn; one that is heeded also where its turn has just ended."""
        if self.is_at_end():
            return Stop("record", self.turn)
        hart, left = self.turns.at(self.steps)
        try:
            told = Told(self.ask(line_of(hart, min(limit, left))))
        except Refused:
            raise self.other_record(f"hart {hart} is not live") from None
        self.moved(hart, told.steps)
        if told.why == "ended" and self.steps < self.turns.end:
            raise self.other_record("the program has ended")
        if told.why == "gone" and told.steps < min(limit, left):
            raise self.other_record(f"hart {hart} has ended")
        stop = self.stop_of(told, self.turn if told.why == "limit" else hart)
        if stop.why == "gone" or stop.why == "break" and told.steps == left and (hart not in heeds or self.is_ours(stop)):
            stop.why, stop.hart = "limit", self.turn
        return stop

    def stop_of(self, told, hart):
        self.has_ended = self.has_ended or told.why == "ended"
        return Stop(told.why, hart, told.steps, None if told.number is None else self.addresses[told.number])

    def pass_here(self):
        """One step by turns. The hart whose turn it is passes the points at which it stands; what it writes is told."""
        hart = self.turn
        x = self.regs(hart)
        call, here = self.call_at(x), ("break", x[32])
        is_call, is_break = x[32] in self.calls, here in self.points
        if is_call:
            self.ask(f"remove {self.calls.pop(x[32])}")
        if is_break:
            self.remove_point(*here)
        try:
            stop = self.piece(1)
        finally:
            if is_call:
                self.calls[x[32]] = self.add(f"break {x[32]}")
            if is_break:
                self.add_point(*here)
        self.tell(hart, call)
        return stop

    def go(self, limit=None, interrupted=never, heeds=()):
        """Steps by turns until a point of the user is met, so many are done, the program has ended, or the caller interrupts."""
        done = 0
        while limit is None or done < limit:
            if interrupted():
                return Stop("interrupt", self.turn, done)
            stop = self.piece(PIECE if limit is None else min(PIECE, limit - done), heeds=heeds)
            done += stop.steps
            if self.is_ours(stop) and done != limit:
                stop = self.pass_here()
                done += stop.steps
            if stop.why != "limit" and not self.is_ours(stop):
                stop.steps = done
                return self.noted(stop)
        return Stop("limit", self.turn, done)

    def noted(self, stop):
        """A stop. If it is at a break, that is passed by the next step of another hart."""
        if stop.why == "break":
            self.stood = stop.hart, self.steps
        return stop

    def is_ours(self, stop):
        return stop.why == "break" and not self.is_break(stop.address)

    def step(self, hart, x=None, interrupted=never):
        """One instruction of a hart, whose turn it may not be; `x` are its registers, where they are known. By a record the harts whose turns
        are before it have these first."""
        begun = self.steps
        if self.record:
            stop = self.wait_for_turn(hart, interrupted)
            if stop:
                return stop
        x, before, runs = x or self.regs(hart), self.watched(), self.turn_of(hart)
        try:
            if self.ask(f"step {hart}") == "absent":
                return Stop("absent", hart)
        except Refused as refused:
            if refused.number != 5:
                raise
            self.has_ended = True
            return Stop("ended", hart)
        self.moved(runs, 1)
        self.tell(hart, self.call_at(x))
        is_call = self.image.word(x[32]) == ECALL
        if (is_call or self.regs(hart)[32] == x[32]) and self.ending():    # a trap leaves the hart where it stands
            return Stop("ended", hart, self.steps - begun)
        changed = next((it[1] for it, now in self.watched().items() if now != before[it]), None)
        done = self.steps - begun
        return Stop("limit", hart, done) if changed is None else Stop("watch", hart, done, changed)

    def turn_of(self, hart):
        """How a step of a hart is kept: where it has its turn, it is one by turns."""
        if self.record or not self.goes_back:
            return hart
        self.piece(0)
        return BY_TURNS if self.turn == hart else hart

    def wait_for_turn(self, hart, interrupted):
        """A record's steps up to the next one of a hart. A stop, where something comes before it; not the break at which the caller was told that the
        hart stands whose turn it is."""
        while not self.is_at_end():
            runs, left = self.turns.at(self.steps)
            if runs == hart:
                return None
            stop = self.pass_here() if self.stood == (runs, self.steps) else self.go(left, interrupted)
            if stop.why != "limit" and not self.is_ours(stop):
                return self.noted(stop)
        return Stop("record", hart)

    def go_alone(self, hart, limit, interrupted):
        """Steps of one hart while the others stay: the same reasons to stop, and that it is live no more."""
        done = 0
        while done != limit:
            if interrupted():
                return Stop("interrupt", hart, done)
            stop = self.piece(PIECE if limit is None else min(PIECE, limit - done), hart)
            done += stop.steps
            if self.is_ours(stop) and done != limit:
                stop = self.step(hart)    # past the point, at which its call is told
                done += stop.steps
                if stop.why == "limit" and not self.is_live(hart):
                    stop.why = "gone"
            if stop.why == "gone":
                return Stop("limit", self.harts()[0], done)
            if stop.why != "limit" and not self.is_ours(stop):
                stop.steps = done
                return stop
        return Stop("limit", hart, done)

    def go_only(self, harts, limit=None, interrupted=never):
        """Steps of some harts by turns while the others stay: the same reasons to stop, and that none of them is live. Those of several are
        taken one by one."""
        if len(harts) == 1:
            return self.go_alone(harts[0], limit, interrupted)
        done = 0
        while harts:
            for hart in harts:
                if done == limit:
                    return Stop("limit", hart, done)
                if done % SINGLE_PIECE == 0 and interrupted():
                    return Stop("interrupt", hart, done)
                x = self.regs(hart)
                if self.is_break(x[32]):
                    return Stop("break", hart, done, x[32])
                stop = self.step(hart, x)
                done += stop.steps
                if stop.why != "limit":
                    stop.steps = done
                    return stop
                if self.image.word(x[32]) == ECALL and not self.is_live(hart):
                    harts = [it for it in harts if it != hart]
        return Stop("limit", self.harts()[0], done)

    def go_round(self, hart):
        """The other harts' turns, up to the next one of a hart that has had its own. None where nothing of them is to be told."""
        self.piece(0)    # whose turn it is
        for _ in range(HARTS):
            if self.turn == hart:
                return None
            stop = self.go(1)
            if stop.why != "limit":
                return stop
        return None

    # ---- the way back

    def is_at_end(self):
        """Whether a record has no step more."""
        return bool(self.record) and self.steps == self.turns.end

    def steps_before_exit(self):
        """How many steps a record has before the one with which the program exits; 0 where it does not exit, or stands there."""
        exits = self.record and self.record.ending and self.record.ending[0] == "exited"
        return max(self.turns.end - 1 - self.steps, 0) if exits else 0

    def next_hart(self, default):
        """Whose step the next one was, where that is known."""
        hart = self.turns.at(self.steps)[0] if self.steps < self.turns.end else BY_TURNS
        return default if hart == BY_TURNS else hart

    def other_record(self, words):
        name = self.record.name if self.record else self.name
        return Refused(0, f"{name} is no record of this run: after {self.steps} steps {words}")

    def tells_other_ending(self):
        """Whether the program stands at the end of a record, and has not ended as that tells."""
        return self.record is not None and self.is_at_end() and self.ending() != self.record.ending

    def back(self, count):
        """To the state so many steps before."""
        if not self.goes_back:
            raise Refused(0, WITH_FRAMES)
        if count > self.steps:
            raise Refused(0, f"there are only {self.steps} steps before this place" if self.steps else "this is the beginning: there is no step before it")
        return self.seek(self.steps - count, "back")

    def back_to_stop(self, undoes=False, interrupted=never):
        """To the last place before this one at which a point stops a run, or to the beginning. With `undoes` that of a watch is the place
        before the step that changes it."""
        if not self.goes_back:
            raise Refused(0, WITH_FRAMES)
        if not self.points:
            return self.seek(0, "begin")
        begun, has_ended = self.steps, self.has_ended
        try:
            with self.without_calls():
                address = self.undo_change() if undoes else None
                why, number = self.last_met(interrupted) if address is None else ("watch", None)
        except Interrupted:
            self.go_along(begun)
            self.has_ended = has_ended
            return Stop("interrupt", self.turn)
        if address is not None:
            return Stop("watch", self.next_hart(self.turn), 0, address)
        stop = self.noted(self.seek(self.steps, why))
        if number is not None:
            stop.address = self.addresses[number]
        if why == "watch":
            self.seek(self.steps - 1, why)
            stop.hart = self.next_hart(self.turn)
            if not undoes:
                self.step_along()
        return stop

    def find_change(self, address, length, interrupted=never):
        """To the place behind the last step that has changed one of some bytes. None where there is none: then nothing has moved."""
        if not self.goes_back:
            raise Refused(0, WITH_FRAMES)
        begun, has_ended, points = self.steps, self.has_ended, self.points
        for number in points.values():
            self.ask(f"remove {number}")
        self.points = {}
        try:
            self.add_point("watch", address, length)
            stop = self.back_to_stop(interrupted=interrupted) if begun else Stop("begin", self.turn)
        finally:
            self.remove_point("watch", address, length)
            for point in points:
                self.add_point(*point)
        if stop.why != "begin":
            return stop
        self.go_along(begun)
        self.has_ended = has_ended
        return None

    def last_met(self, interrupted):
        """Goes back to the last place at which a point stops a run: `watch` or `break`, and its number; or `begin`. Another look begins where the
        last one has ended."""
        width = NEAR
        while True:
            if interrupted():
                raise Interrupted
            begun = time.monotonic()
            words = self.ask(f"back-go {width}").split()
            self.steps, self.has_ended = int(words[-3]), False
            if words[0] != "limit":
                return words[0], int(words[1]) if words[0] in ("watch", "break") else None
            if time.monotonic() < begun + LOOK_SECONDS:
                width = min(2 * width, MOST_BACK)

    def undo_change(self):
        """Takes the last step back, if it has changed a watched byte: then its address."""
        before = self.watched()
        if not self.steps or not before:
            return None
        self.seek(self.steps - 1, "watch")
        changed = next((it[1] for it, now in self.watched().items() if now != before[it]), None)
        if changed is None:
            self.step_along()
        return changed

    @contextlib.contextmanager
    def without_calls(self):
        """The points of the user alone, for as long."""
        for number in self.calls.values():
            self.ask(f"remove {number}")
        try:
            yield
        finally:
            for address in self.calls:
                self.calls[address] = self.add(f"break {address}")

    def step_along(self):
        """The next step of the run once more. No point stops it."""
        self.ask(f"step {self.next_hart(self.turn)}")
        self.steps += 1
        self.piece(0)    # whose turn it is

    def go_along(self, step):
        """Forward again along the run, up to a step. No point stops it."""
        points, self.points = self.points, {}
        with self.without_calls():
            for number in points.values():
                self.ask(f"remove {number}")
            for runs, count in self.turns.pieces(self.steps, step):
                self.ask(line_of(runs, count))
                self.steps += count
        for point in points:
            self.add_point(*point)
        self.piece(0)

    def back_of(self, hart):
        """To the place before the last step of a hart, or to the beginning, where it has taken none."""
        if not self.goes_back:
            raise Refused(0, WITH_FRAMES)
        before = self.watched()
        if not self.back_before(hart):
            return self.seek(0, "begin")
        changed = next((it[1] for it, now in self.watched().items() if now != before[it]), None)
        return Stop("back", hart) if changed is None else Stop("watch", hart, 0, changed)

    def back_before(self, hart):
        """Goes back before the last step of a hart, if it has taken one. By turns each hart that is live has one among so many as there are harts."""
        for runs, first, last in self.turns.pieces_before(self.steps):
            if runs == hart:
                self.seek(last - 1, "back")
                return True
            if runs == BY_TURNS:
                for step in range(last - 1, max(first, last - HARTS) - 1, -1):
                    self.seek(step, "back")
                    if self.turn == hart:
                        return True
                if last - first >= HARTS:
                    return False
        return False

    def seek(self, step, why):
        """To an earlier state of this run, which is the present one from then on."""
        while step < self.steps:
            count = min(self.steps - step, MOST_BACK)
            self.ask(f"back {count}")
            self.steps -= count
            self.has_ended = False
        self.piece(0)    # whose turn it is
        return Stop(why, self.next_hart(self.turn))


def command(image, given, frames=None):
    """The words that begin a debugger."""
    words = os.environ.get("DEBUG_COMMAND", f"{TOP}/guest").split() + ["debug"]
    words += ["--frames", str(frames)] if frames is not None else []
    return [*words, *(["--input", given] if given else []), image]


def parse_end(line):
    found = re.fullmatch(r"exited (\d+)", line)
    if found:
        return ("exited", int(found[1]))
    found = re.fullmatch(r"trap (\d+) hart (\d+) pc (\w+) value (\w+)", line)
    if found:
        return ("trap", int(found[1]), int(found[2]), int(found[3], 16), int(found[4], 16))
    return ("killed", line.removeprefix("killed "))


def say(*words):
    print(*words, file=sys.stderr, flush=True)

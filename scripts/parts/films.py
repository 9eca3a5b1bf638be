"""The films that the program `show_run` writes: a line of JSON for the head, one for each scene, and one for what was written."""
import json
import re
import subprocess
import sys
import time

from first_build import build_first, command

SCENES_OF_A_PIECE = 500    # one scene in so many is whole, as the program writes them
MOST_EVENTS = 200000
SCENE = re.compile(r'\{"event":(?:null|"([^"]*)"),"reply":(?:null|"([^"]*)")')


class FilmFault(Exception):
    """Why there is no film; the status is the program's, which has then said why."""

    def __init__(self, why, status=2):
        super().__init__(why)
        self.status = status


def film_command():
    """How the program is called that reads the machine."""
    try:
        build_first("show_run")
    except SystemExit:
        raise FilmFault("") from None
    return command("show_run")


class Progress:
    """A line at a terminal that says how far a film is, from the second second on."""

    def __init__(self):
        self.begun, self.shown = time.monotonic(), 0.0

    def tell(self, count):
        now = time.monotonic()
        if count % 256 == 0 and now - self.begun > 1 and now - self.shown > 0.2 and sys.stderr.isatty():
            self.shown = now
            print(f"\r\033[K{count} events", end="", file=sys.stderr, flush=True)

    def end(self):
        if self.shown:
            print("\r\033[K", end="", file=sys.stderr, flush=True)


class Film:
    """A film that was read: its head and its last line as they stand, and the lines of its scenes with their events and replies."""

    def __init__(self, words, said=None):
        self.lines, self.events, self.head, self.outputs = [], [], "", ""
        progress = Progress()
        # a slot's file that takes no more is a failed save, and no signal that ends the program
        with subprocess.Popen([*film_command(), *words], stdout=subprocess.PIPE, stderr=said, text=True, encoding="ascii", restore_signals=False) as run:
            try:
                self.read(run.stdout, progress)
            except BaseException:
                run.kill()
                raise
            finally:
                progress.end()
        if run.returncode or not self.outputs:
            raise FilmFault("", run.returncode if run.returncode > 0 else 2)

    def read(self, stream, progress):
        self.head = stream.readline()
        for line in stream:
            at = SCENE.match(line)
            if not at:
                self.outputs = line
                continue
            self.lines.append(line)
            self.events.append((at[1], at[2]))
            progress.tell(len(self.lines))
            if len(self.lines) > MOST_EVENTS + 2:
                raise FilmFault(f"more than {MOST_EVENTS} events; of a run --limit {MOST_EVENTS} has the first of them")

    def happened(self):
        """The events that happened, each with its reply."""
        return [(event, reply) for event, reply in self.events if event]

    def frames(self):
        return json.loads(self.head)["frames"]

    def scenes(self, first=0):
        """The scenes, whole, from one on that is written whole: what one leaves out is as in the scene before it."""
        scene = None
        for number, line in enumerate(self.lines[first:]):
            told = json.loads(line)
            scene = unfolded(told, scene) if number % SCENES_OF_A_PIECE and told["event"] else told
            yield scene

    def last_scene(self):
        scene = None
        for scene in self.scenes((len(self.lines) - 1) // SCENES_OF_A_PIECE * SCENES_OF_A_PIECE):
            pass
        return scene

    def pieces(self):
        """The scenes, each piece from one that is whole on."""
        for start in range(0, len(self.lines), SCENES_OF_A_PIECE):
            yield "[" + ",".join(self.lines[start:start + SCENES_OF_A_PIECE]) + "]"


def unfolded(scene, before):
    """A scene with what it leaves out, which is as in the scene before it."""
    pages = {row[0]: row for row in (*before["pages"], *scene.get("pages", ()))}
    whole = {**before, **scene, "pages": list(pages.values())}
    if scene.get("processes"):
        whole["processes"] = [unfolded_process(told, was) for told, was in zip(scene["processes"], before["processes"])]
    return whole


def unfolded_process(told, before):
    if not told:
        return before
    harts = [unfolded_hart(hart, before["harts"][k] if k < len(before["harts"]) else None) for k, hart in enumerate(told["harts"])]
    tables = [before["tables"][k] if table is None else table for k, table in enumerate(told["tables"])]
    return {"end": told["end"], "harts": harts, "tables": tables}


def unfolded_hart(told, before):
    if not told or not before:
        return told or before
    x = before["x"][:]
    for place, value in told["x"]:
        x[place] = value
    return {**before, **told, "x": x}


def closing(happened, processes):
    """The events by which the driver closes a run at its limit: the save that is out, and the end of each process that goes on."""
    over, purged = set(), set()
    for event, reply in happened:
        name, *numbers = event.split()
        if name == "kill" or reply == "ended":
            over.add(int(numbers[0]))
        elif name == "purge" and reply == "purged":
            purged.add(int(numbers[0]))
    if happened and happened[-1][0].startswith("collect") and happened[-1][1] == "dirty":
        yield happened[-1][0].replace("collect", "saved")
    for process in range(processes):
        if process not in over:
            yield f"kill {process} 6"
        if process not in purged:
            yield f"purge {process}"

"""What an event did, as a clause: the words of event-words.json, which the viewer of films has too, filled in from two scenes of a film."""
import json
import os
import re

with open(f"{os.path.dirname(os.path.realpath(__file__))}/event-words.json", encoding="utf-8") as it:
    WORDS = json.load(it)
OF_PAGES = ("collect", "saved", "pagein", "clean", "copy", "cleaned")
IN_FRAMES = ("resident", "leaving", "saving")
DATA = re.compile(r"(l[bhw]u?|s[bhw]|amo\w+\.w|lr\.w|sc\.w)\S* (?:.*,)?(-?\d*)\(x(\d+)\)")


def clause(scene, before):
    """What the event of a scene did, with no capital letter and no full stop."""
    if not scene["event"]:
        return WORDS["end" if before else "start"]
    key, facts = Happened(scene, before).told()
    return re.sub(r"\{(\w+)\}", lambda name: str(facts[name[1]]), WORDS[key])


def page_name(key):
    process, vpn = key.split("/")
    return f"{process}/0x{int(vpn):X}"


def listed(words):
    """Words as a list, as in: 0, 1 and 2."""
    return " and ".join(filter(None, (", ".join(words[:-1]), *words[-1:])))


def data_access(hart):
    """The address that the instruction of a hart loads from or stores to, and which of both, if it does."""
    found = DATA.fullmatch(hart["text"] or "")
    if not found:
        return None
    base = 0 if found[3] == "0" else hart["x"][int(found[3]) - 1]
    return (base + int(found[2] or 0)) % 2 ** 32, "load" if re.fullmatch(r"l[bhw]u?|lr\.w", found[1]) else "store"


class Happened:
    """An event with its reply, and the scenes after and before it."""

    def __init__(self, scene, before):
        self.scene, self.before, self.reply = scene, before, scene["reply"]
        self.name, *self.numbers = scene["event"].split()
        self.facts = dict(zip(("process", "hart"), self.numbers))
        self.page = self.page_of()
        if self.page:
            self.facts["page"] = page_name(self.page)

    def page_of(self):
        """The page that the event or its reply names."""
        named = re.search(r"\d+/\d+", self.reply)
        if named:
            return named[0]
        absent = re.fullmatch(r"absent (\d+)", self.reply)
        if absent or self.name in OF_PAGES:
            return f"{self.numbers[0]}/{absent[1] if absent else self.numbers[1]}"
        return None

    def row(self, scene):
        """What a scene has of the page, if the page is mapped there or was."""
        return next((row for row in scene["pages"] if row[0] == self.page and len(row) == 7), None)

    def state(self, scene):
        row = self.row(scene)
        return row[1] if row else None

    def harts(self):
        """The harts of the event's process, before it."""
        return self.before["processes"][int(self.numbers[0])]["harts"]

    def hart(self):
        return self.harts()[int(self.numbers[1])]

    def told(self):
        """Which words say what happened, and what is filled in."""
        if self.reply.startswith("refused "):
            return self.refused()
        kind = re.sub(r" \d+(/\d+)?", "", self.reply)
        how = {"step": self.stepped, "notice": self.noticed, "sweep": self.swept, "kill": self.killed}.get(self.name, self.moved)
        return f"{self.name} {kind}{how(kind)}", self.facts

    def refused(self):
        where = self.state(self.scene)
        self.facts["where"] = WORDS.get(f"where {where}", "")
        reason = self.reply.removeprefix("refused ")
        if reason in ("15", "16") and (self.row(self.scene) or [""])[-1] == "a copy is out":
            return f"refused {reason} copy", self.facts
        return f"refused {reason}{' held' if reason in ('4', '7', '8', '13') and where in IN_FRAMES else ''}", self.facts

    def stepped(self, kind):
        hart = self.hart()
        self.facts["instruction"] = hart["text"] or f"the word 0x{hart['word'] or 0:08X}"
        if kind == "ended":
            self.facts["end"] = self.scene["processes"][int(self.numbers[0])]["end"]
            return " trap" if self.facts["end"].startswith("trap") else ""
        if kind != "absent":
            return ""
        self.facts["where"] = WORDS.get(f"where {self.state(self.scene)}", "")
        address, access = self.access(hart)
        self.facts.update(access=access, address=f"0x{address:08X}")
        return ""

    def access(self, hart):
        """The access that needs the page: of data where that is on the page and the instruction is not."""
        wanted, data = int(self.page.split("/")[1]), data_access(hart)
        return data if data and data[0] >> 12 == wanted != hart["pc"] >> 12 else (hart["pc"], "fetch")

    def noticed(self, _):
        dropped = [page_name(f"{self.numbers[0]}/{entry[0]}") for entry in self.hart()["cached"] if entry[4]]
        self.facts["pages"] = listed(dropped)
        return ("", " page", " pages")[min(2, len(dropped))]

    def swept(self, kind):
        if kind == "victim":
            row = self.row(self.scene)
            self.facts["frame"] = row[2]
            return " changed" if row[5] else ""
        old, new = (dict(scene["entries"]).get(self.page) for scene in (self.before, self.scene))
        self.facts["kind"] = WORDS["sweep kind"].format(old=old, new=new) if old != new else ""
        return ""

    def killed(self, _):
        self.facts["cause"] = WORDS[f"cause {self.numbers[1]}"]
        return ""

    def moved(self, kind):
        """What is said of a page that comes, goes or is cleaned."""
        row = self.row(self.scene if kind in ("mapped", "dirty") else self.before)
        self.facts["frame"] = row[2] if row else None
        if kind == "mapped":
            return " slot" if self.state(self.before) == "away" else ""
        return self.waiting(row) if kind == "not yet" else ""

    def waiting(self, row):
        """Whose translations are waited for: of a page that leaves all, of one that is copied those by which a store sets no bit."""
        vpn = int(self.page.split("/")[1])
        holders = [str(number) for number, hart in enumerate(self.harts())
                   if any(entry[0] == vpn and (entry[3] or self.name == "collect") for entry in hart["cached"])]
        if self.name == "collect" and not holders:
            return " copy"
        self.facts.update(hart=holders[0], harts=listed(holders))
        return " harts" if len(holders) > 1 else ""

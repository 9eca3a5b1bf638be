"""How many accesses of a film hit and missed the TLB of each hart: of each instruction that ran its fetch, and its load or store."""
from event_words import data_access

PLACES = 16    # of a TLB, of which the oldest makes room
RAN = ("ran", "yield", "hart done", "ended")
RIGHTS = {"fetch": "X", "load": "R", "store": "W"}


def counts_of(film):
    """A line for each hart, and one for all with the page-ins."""
    counts: dict[tuple[int, int], list[int]] = {}
    scenes = film.scenes()
    before = next(scenes)    # the machine before the first event
    for scene in scenes:
        name, *numbers = (scene["event"] or "-").split()
        if name == "step" and scene["reply"] in RAN:
            process, hart = map(int, numbers)
            trapped = (scene["processes"][process]["end"] or "").startswith("trap")
            for hit in hits_of(before["processes"][process]["harts"][hart], trapped):
                counts.setdefault((process, hart), [0, 0])[hit] += 1
        before = scene
    for (process, hart), (misses, hits) in sorted(counts.items()):
        yield f"process {process} hart {hart} accesses {hits + misses} TLB hits {hits} TLB misses {misses}"
    hits, misses = (sum(one[hit] for one in counts.values()) for hit in (1, 0))
    yield f"TLB hits {hits} TLB misses {misses} page-ins {before['page_ins']}"


def hits_of(hart, trapped):
    """Whether each access of the next instruction of a hart hits."""
    cached = hart["cached"]
    fetched = is_hit(cached, hart["pc"], "fetch")
    data = None if trapped else data_access(hart)
    if not data:
        return [fetched]
    if data[0] >> 12 == hart["pc"] >> 12 and data[1] == "load":
        return [fetched, True]    # the page that was just fetched from
    return [fetched, is_hit(cached[1:] if not fetched and len(cached) == PLACES else cached, *data)]


def is_hit(cached, address, access):
    """Whether a translation is held that allows the access; a store needs one that is marked dirty."""
    return any(page == address >> 12 and RIGHTS[access] in rights and (access != "store" or dirty) for page, _, rights, dirty, _ in cached)

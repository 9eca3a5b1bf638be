"""Threads of a process and of those that it started, as Linux lists them in /proc."""
import glob

RUNS = "R"    # it runs, or waits for a processor


def read(file):
    """The name, the state and the parent in a file `stat`, or nothing where the thread has ended."""
    try:
        with open(file, encoding="utf-8", errors="replace") as it:
            name, _, rest = it.read().partition("(")[2].rpartition(")")
    except OSError:
        return None
    state, parent = rest.split()[:2]
    return name, state, int(parent)


def family(process):
    """A process and all that it started, directly or not."""
    children: dict[int, list[int]] = {}
    for file in glob.glob("/proc/[0-9]*/stat"):
        told = read(file)
        if told:
            children.setdefault(told[2], []).append(int(file.split("/")[2]))
    found = [process]
    for one in found:
        found += children.get(one, [])
    return found


def running(process, name):
    """How many threads of this name run."""
    told = [read(file) for one in family(process) for file in glob.glob(f"/proc/{one}/task/*/stat")]
    return sum(it is not None and it[:2] == (name, RUNS) for it in told)

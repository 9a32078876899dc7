"""Runs tasks side by side, as many as there are processors and memory for."""
import os
from collections import namedtuple
from concurrent.futures import FIRST_COMPLETED, ThreadPoolExecutor, wait

# The most memory that tasks may take together, in bytes.
MOST = 20e9

# What a task is of, how long it takes with others, how many bytes it may take, and the call that is
# its work.
Task = namedtuple("Task", "of work memory call")


def processors():
    number = os.environ.get("RT_JOBS", "")
    return int(number) if number.isdigit() and int(number) else len(os.sched_getaffinity(0))


def free():
    """Returns how much memory tasks may take, in bytes."""
    found = [MOST]
    with open("/proc/meminfo", encoding="utf-8") as lines:
        found += [850 * int(it.split()[1]) for it in lines if it.startswith("MemAvailable:")]
    try:
        with open("/sys/fs/cgroup/memory.max", encoding="utf-8") as it:
            found.append(0.85 * float(it.read()))
    except (OSError, ValueError):
        pass
    return min(found)


def in_lanes(tasks):
    """Runs each task, the longest first, and yields what it is of and its future, as it ends."""
    lanes, memory, running = processors(), free(), {}
    left = sorted(tasks, key=lambda it: -it.work)
    with ThreadPoolExecutor(lanes) as pool:
        while left or running:
            for task in list(left):
                taken = sum(it.memory for it in running.values())
                if len(running) < lanes and (not running or taken + task.memory <= memory):
                    left.remove(task)
                    running[pool.submit(task.call)] = task
            for it in wait(running, return_when=FIRST_COMPLETED).done:
                yield running.pop(it).of, it

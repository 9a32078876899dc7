"""5,000 limits in a loop under the clock's numbers, and two such loops at once: each is set."""
from cases.stopping import loops


def run(world, checks):
    loops(world, checks, "limits in a loop", 1, 5_000)
    loops(world, checks, "limits of two loops at once", 2, 5_000)

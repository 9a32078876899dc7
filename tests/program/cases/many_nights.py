"""The nights of nights.py at length: a kill at each change of a file, and hundreds of histories."""
from cases.nights import killed_at_a_change, random_histories
from ends import wait_past_a_night

HISTORIES = 300


def run(world, checks):
    # (each takes minutes)
    wait_past_a_night(seconds=600)
    killed_at_a_change(world, checks, kills=None)
    wait_past_a_night(seconds=600)
    random_histories(world, checks, seeds=range(1_000, 1_000 + HISTORIES))

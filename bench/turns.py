"""Times commands by turns, so that what else the machine does falls on all of them alike."""
import statistics
import subprocess
import time


def medians(commands, text, rounds=15):
    """The median seconds of each command on the same standard input."""
    times = [[] for _ in commands]
    outputs = [None] * len(commands)
    for _ in range(rounds):
        for place, command in enumerate(commands):
            start = time.perf_counter()
            run = subprocess.run(command, input=text, capture_output=True, check=True)
            times[place].append(time.perf_counter() - start)
            outputs[place] = run.stdout
    return [statistics.median(t) for t in times], outputs


def built(source, folder):
    """The program that rustc -O makes of a file, in that folder."""
    program = f"{folder}/{source.stem}"
    subprocess.run(["rustc", "-O", "--edition", "2021", "-o", program, source], check=True)
    return program

#!/usr/bin/env python3
"""measure.py RUNS SHAPE COMMANDS DAY NAME=COMMAND ..

Runs the programs on a day in turn (A B A B ..), RUNS times each, and prints a row of the table of
run.sh for each; README.md says what the columns mean. Ratios are to the first program.
"""
import os
import shlex
import statistics
import subprocess
import sys
import tempfile
import time

START_RUNS = 21
TERMS_LENGTH = 24


def run(command, day):
    """Seconds on the clock, and of the processor, of one run without its output."""
    begin = time.perf_counter()
    output = [(os.POSIX_SPAWN_OPEN, 1, os.devnull, os.O_WRONLY, 0)]
    child = os.posix_spawn(command[0], command + [day], os.environ, file_actions=output)
    _, status, usage = os.wait4(child, 0)
    wall = time.perf_counter() - begin
    if status != 0:
        sys.exit(f"measure: {shlex.join(command)} {day}: status {status}")
    return wall, usage.ru_utime + usage.ru_stime


def medians(programs, day, runs):
    """By name: the medians of both times."""
    times = {name: [] for name in programs}
    for _ in range(runs):
        for name, command in programs.items():
            times[name].append(run(command, day))
    return {name: [statistics.median(column) for column in zip(*taken)] for name, taken in times.items()}


def memory(command, day):
    """Largest resident memory in KB. From wait4 it would be that of this program, if that is larger."""
    time_command = ["/usr/bin/time", "-f", "%M", *command, day]
    done = subprocess.run(time_command, stdout=subprocess.DEVNULL, stderr=subprocess.PIPE, text=True, check=True)
    return int(done.stderr.split()[-1])


def empty_day(day):
    """The same terms, without commands."""
    with open(day, "rb") as whole, tempfile.NamedTemporaryFile(delete=False) as empty:
        empty.write(whole.read(TERMS_LENGTH))
    return empty.name


def main():
    if len(sys.argv) < 6:
        sys.exit("usage: " + __doc__.splitlines()[0])
    runs, shape, commands, day = int(sys.argv[1]), sys.argv[2], int(sys.argv[3]), sys.argv[4]
    programs = {}
    for argument in sys.argv[5:]:
        name, _, command = argument.partition("=")
        programs[name] = shlex.split(command)

    empty = empty_day(day)
    starts = medians(programs, empty, START_RUNS)
    os.remove(empty)
    times = medians(programs, day, runs)
    first_wall, first_processor = next(iter(times.values()))
    for name, (wall, processor) in times.items():
        each = (processor - starts[name][1]) / commands * 1e9
        print(f"| {shape} | {commands:,} | {name} | {wall * 1e3:.1f} | {processor * 1e3:.1f} | {each:.0f} "
              f"| {wall / first_wall:.2f} | {processor / first_processor:.2f} | {memory(programs[name], day):,} |",
              flush=True)


main()

#!/usr/bin/env python3
"""Measures `plandesk check` on plans of several sizes, beside `ninja -n` on the same graphs.

    measure.py [--runs N] [--sizes N,N,..] [--program PATH] [--no-resources] [--ascending] [--in-order] [--keep FOLDER]

README.md says what each figure is. Exit status: 0 all targets are kept, 1 one is missed, 2 nothing could be measured.
"""
import argparse
import os
import platform
import shutil
import subprocess
import sys
import tempfile
import time
from pathlib import Path
from statistics import median

HERE = Path(__file__).resolve().parent
PROGRAM = HERE.parent / "crates" / "plan_desk" / "out" / "plan_desk"
MOMENT = "2024-03-01T22:00"

FULL, HALF = 20_000, 10_000
MOST_SECONDS = 1.0        # for the full plan
MOST_MEGABYTES = 400      # for the full plan
MOST_TIMES_NINJA = 1.1    # for the full plan, where ninja has built nothing
MOST_GROWTH = 2.4         # from the half plan to the full one


class Unmeasured(Exception):
    """Nothing can be said: a program is absent, or doesn't do what is to be measured."""


def tried_in_a_folder(play):
    """Plays in a folder of its own, which is removed. The exit status: 2 where nothing could be tried, else 0."""
    try:
        with tempfile.TemporaryDirectory() as name:
            play(Path(name))
    except (Unmeasured, OSError) as fault:
        print(f"nothing could be tried: {fault}")
        return 2
    return 0


class Run:
    """One run of a program: seconds on the clock, seconds of processor, peak memory in megabytes, and what it wrote."""

    def __init__(self, words, folder, out):
        begun = time.perf_counter()
        with open(out, "wb") as written:
            child = subprocess.Popen([str(w) for w in words], cwd=folder, stdout=written)
            _, status, used = os.wait4(child.pid, 0)
        self.seconds = time.perf_counter() - begun
        self.processor = used.ru_utime + used.ru_stime
        self.megabytes = used.ru_maxrss / 1024
        child.returncode = self.status = os.waitstatus_to_exitcode(status)
        self.out = Path(out).read_bytes()


class Plan:
    """A plan of one size, its graph for ninja, and what was measured on them."""

    def __init__(self, size, folder, switches):
        self.size = size
        self.folder = folder / str(size)
        self.folder.mkdir(parents=True, exist_ok=True)
        self.desk, self.ninja, self.built = [], [], []
        self.answer = None
        words = [sys.executable, HERE / "generate.py", str(size), "plan.csv", "--ninja", "build.ninja", *switches]
        subprocess.run(words, cwd=self.folder, check=True)
        self.build()

    def build(self):
        """A folder with the same graph where each output is there, none older than another."""
        built = self.folder / "built"
        built.mkdir(exist_ok=True)
        shutil.copy(self.folder / "build.ninja", built)
        for turn in range(self.size):
            (built / f"o{turn}").touch()
            os.utime(built / f"o{turn}", (0, 0))

    def run_desk(self, program):
        run = Run([program, "check", "--plan", "plan.csv", "--at", MOMENT], self.folder, self.folder / "answer")
        if run.status != 0 or not run.out.startswith(b"accepted\n"):
            said = run.out.decode(errors="replace").strip()[:200]
            raise Unmeasured(f"the plan of {self.size} operations isn't accepted: status {run.status}, {said!r}")
        if self.answer not in (None, run.out):
            raise Unmeasured(f"two runs on the plan of {self.size} operations answered differently")
        self.answer = run.out
        self.desk.append(run)

    def run_ninja(self):
        """`ninja -n` where nothing is built, and where all is."""
        planned = self.folder / "planned"
        run, idle = Run(["ninja", "-n"], self.folder, planned), Run(["ninja", "-n"], self.folder / "built", planned)
        if run.status != 0 or run.out.count(b"\n") != self.size:
            raise Unmeasured(f"ninja -n didn't plan {self.size} operations: status {run.status}")
        if idle.status != 0 or idle.out != b"ninja: no work to do.\n":
            raise Unmeasured(f"ninja -n didn't find the {self.size} operations built: status {idle.status}")
        run.out = b""
        self.ninja.append(run)
        self.built.append(idle)

    def named(self):
        return self.answer.count(b"\nstarts ")

    def ratio(self, measure):
        return measure(self.desk) / measure(self.ninja)

    def ratio_to_built(self, measure):
        return measure(self.desk) / measure(self.built)


def median_of(runs):
    return median(run.seconds for run in runs)


def best_of(runs):
    return min(run.seconds for run in runs)


def processor_of(runs):
    """Seconds of processor, the least: what other programs take of the machine counts little in it."""
    return min(run.processor for run in runs)


def peak_of(runs):
    return max(run.megabytes for run in runs)


def find_ninja():
    """Debian's ninja, installed where it is absent."""
    if shutil.which("ninja"):
        return
    root = [] if os.geteuid() == 0 else ["sudo"]
    for words in (["apt-get", "update"], ["apt-get", "install", "-y", "ninja-build"]):
        subprocess.run(root + words, check=True, stdout=subprocess.DEVNULL)
    if not shutil.which("ninja"):
        raise Unmeasured("no ninja")


def field_of(path, name):
    for line in Path(path).read_text().splitlines():
        if line.startswith(name):
            return line.split(":", 1)[1].strip()
    return "unknown"


def load_text():
    return " ".join(f"{load:.2f}" for load in os.getloadavg())


def tell_surroundings(program, runs, plans, beside):
    """Prints where it is measured, on which plans, and which other program stands beside it."""
    print(f"machine   {os.cpu_count()} processors, {field_of('/proc/cpuinfo', 'model name')}")
    print(f"memory    {int(field_of('/proc/meminfo', 'MemTotal').split()[0]) // 1024} MB")
    print(f"system    Linux {platform.release()}, {beside}")
    print(f"program   {program}, {program.stat().st_size} bytes, of {time.strftime('%Y-%m-%d %H:%M', time.gmtime(program.stat().st_mtime))} UTC")
    print(f"plans     {plans}")
    print(f"runs      {runs} of each, in turn; load before (1, 5, 15 minutes): {load_text()}", flush=True)


def tell_table(plans):
    print(f"load      after: {load_text()}\n")
    print("           |           plandesk check           |              ninja -n              |     ratio")
    print("operations |    best  median     cpu  peak (MB) |    best  median     cpu  peak (MB) | median   cpu | named")
    for plan in plans:
        cells = " | ".join(f"{best_of(runs):7.3f} {median_of(runs):7.3f} {processor_of(runs):7.3f} {peak_of(runs):10.0f}" for runs in (plan.desk, plan.ninja))
        ratios = f"{plan.ratio(median_of):6.2f} {plan.ratio(processor_of):5.2f}"
        print(f"{plan.size:>10} | {cells} | {ratios} | {plan.named():>5}")
    print("\nninja -n where all is built, shown beside and not judged:")
    for plan in plans:
        print(f"{plan.size:>10} | {median_of(plan.built):.3f} median, {processor_of(plan.built):.3f} cpu; "
              f"plandesk takes {plan.ratio_to_built(median_of):.2f} times the median, {plan.ratio_to_built(processor_of):.2f} the cpu")
    print()
    for smaller, larger in zip(plans, plans[1:]):
        times = [measure(getattr(larger, of)) / measure(getattr(smaller, of)) for of in ("desk", "ninja") for measure in (median_of, processor_of)]
        print(f"from {smaller.size} to {larger.size} operations, {larger.size / smaller.size:.1f} times as many: "
              f"plandesk {times[0]:.2f} times the median, {times[1]:.2f} the cpu; ninja {times[2]:.2f} and {times[3]:.2f}")


def targets(plans):
    """What is asked of the full plan, as (what, measured, most); nothing where the sizes don't allow it."""
    by_size = {plan.size: plan for plan in plans}
    full, half = by_size.get(FULL), by_size.get(HALF)
    asked = []
    if full:
        asked.append(("seconds, median", median_of(full.desk), MOST_SECONDS))
        asked.append(("megabytes at the peak", peak_of(full.desk), MOST_MEGABYTES))
        asked.append(("times ninja -n, of medians", full.ratio(median_of), MOST_TIMES_NINJA))
    if full and half:
        asked.append(("times the half plan's time, of medians", median_of(full.desk) / median_of(half.desk), MOST_GROWTH))
    return asked


def tell_targets(plans):
    """Whether all targets are kept."""
    print(f"\ntargets for {FULL} operations")
    asked = targets(plans)
    for what, measured, most in asked:
        print(f"  {'kept  ' if measured <= most else 'MISSED'} {measured:9.2f} of at most {most:6.1f}  {what}")
    if len(asked) < 4:
        print(f"  not all were judged: that takes the sizes {HALF} and {FULL}")
    return all(measured <= most for _, measured, most in asked)


def given_words():
    words = argparse.ArgumentParser(description=__doc__.splitlines()[0])
    words.add_argument("--runs", type=int, default=7, help="runs of each program on each plan")
    words.add_argument("--sizes", default="1000,5000,10000,20000", help="operations, joined by commas, rising")
    words.add_argument("--program", type=Path, default=PROGRAM)
    words.add_argument("--keep", type=Path, help="write the plans to this folder and leave them there")
    for switch in ("--no-resources", "--ascending", "--in-order"):
        words.add_argument(switch, action="append_const", dest="switches", const=switch, help="as generate.py has it")
    return words.parse_args()


def measured_plans(given, folder):
    switches = given.switches or []
    ninja = subprocess.run(["ninja", "--version"], check=True, capture_output=True, text=True).stdout.strip()
    told = " ".join(switches) or "with resources, pairs up and down the keys"
    tell_surroundings(given.program, given.runs, told, f"ninja {ninja}")
    plans = [Plan(int(size), folder, switches) for size in given.sizes.split(",")]
    for _ in range(given.runs):
        for plan in plans:
            plan.run_desk(given.program)
            plan.run_ninja()
    return plans


def main():
    given = given_words()
    given.program = given.program.resolve()
    try:
        if not given.program.exists():
            raise Unmeasured(f"no program {given.program}: bin/plandesk builds it")
        find_ninja()
        with tempfile.TemporaryDirectory() as folder:
            plans = measured_plans(given, given.keep.resolve() if given.keep else Path(folder))
            tell_table(plans)
            return 0 if tell_targets(plans) else 1
    except (Unmeasured, OSError, subprocess.CalledProcessError) as fault:
        print(f"measure: {fault}", file=sys.stderr)
        return 2


if __name__ == "__main__":
    sys.exit(main())

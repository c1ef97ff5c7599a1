"""What proofs take, and how they fit beside each other: crates.txt says what stands on what, seconds.txt how long each part
of a crate takes, in reference seconds of processor (CONTRIBUTING, "What the gate may cost")."""
import os

TOP = os.path.dirname(os.path.dirname(os.path.realpath(__file__)))
PARTS = ("proof", "tests", "edits")
REFERENCE = {"plan_basics", "operation_graph", "plan_items"}  # the crates whose proofs say how fast a machine is ..
REFERENCE_SECONDS = 252  # .. and what they take on the machine of reference
PROGRAM = "plan_desk"


def stands_on(top=TOP):
    """For each crate, in the order of crates.txt, the crates of the repository that its line names."""
    named = {}
    with open(f"{top}/crates.txt", encoding="utf-8") as lines:
        for line in lines:
            name, found, libraries = line.partition(":")
            if found and not line.startswith("#"):
                named[name.split()[0]] = libraries.split()
    return {name: [it for it in libraries if it in named] for name, libraries in named.items()}


def seconds_of(top=TOP):
    """Reference seconds by crate and part."""
    found = {}
    with open(f"{top}/seconds.txt", encoding="utf-8") as lines:
        for line in lines:
            name, *numbers = line.partition("#")[0].split() or [None]
            if name:
                found.update({(name, part): float(number) for part, number in zip(PARTS, numbers)})
    return found


def below(name, graph):
    """A crate and all that it stands on."""
    found, left = set(), [name]
    while left:
        name = left.pop()
        if name not in found:
            found.add(name)
            left += graph[name]
    return found


def gate(graph, seconds):
    """All tasks of the gate: for each, what it waits for."""
    tasks = {}
    for name, libraries in graph.items():
        tasks[name, "proof"] = [(it, "proof") for it in libraries]
        if seconds.get((name, "tests")):
            tasks[name, "tests"] = [(it, "proof") for it in libraries]
        if seconds.get((name, "edits")):
            tasks[name, "edits"] = [it for it in ((name, "proof"), (name, "tests")) if it in tasks]
    return tasks


def program(graph):
    """The tasks of a build of the program."""
    names = below(PROGRAM, graph)
    return {(name, "proof"): [(it, "proof") for it in libraries] for name, libraries in graph.items() if name in names}


def chains(tasks, seconds):
    """For each task, the seconds of the dearest chain that begins with it, and the task that comes next in that."""
    found, after = {}, {it: [] for it in tasks}
    for task, waits in tasks.items():
        for it in waits:
            after[it].append(task)

    def chain(task):
        if task not in found:
            longest, following = max(((chain(it)[0], it) for it in after[task]), default=(0.0, None))
            found[task] = seconds.get(task, 0.0) + longest, following
        return found[task]

    for task in tasks:
        chain(task)
    return found


def dearest(tasks, seconds):
    """The dearest chain of these tasks, from its beginning, and its seconds."""
    found = chains(tasks, seconds)
    task = max(found, key=lambda it: found[it][0])
    length, chain = found[task][0], []
    while task:
        chain.append(task)
        task = found[task][1]
    return chain, length


def span(tasks, seconds, processors, done=()):
    """How long these tasks take on so many processors, the task with the dearest chain behind it first."""
    found = chains(tasks, seconds)
    left = sorted((it for it in tasks if it not in done), key=lambda it: -found[it][0])
    ended, running, now = set(done), {}, 0.0
    while left or running:
        for task in [it for it in left if all(low in ended or low not in tasks for low in tasks[it])]:
            if len(running) < processors:
                left.remove(task)
                running[task] = now + seconds.get(task, 0.0)
        task = min(running, key=running.get)
        now = running.pop(task)
        ended.add(task)
    return now

"""The wrong bodies: edits that turn what a function means. Those that the gate tries stand in crates/CRATE/must-fail/, a file
each, as rt wants them; all others stand in audit/CRATE.edits, one below the other. There an edit is a heading `# ..` that
says in words what it turns, and below it lines `file:` (a path in crates/CRATE/), `old:` (text that stands there once) and
`new:` (what takes its place), as in a file of must-fail/. What stands in a heading behind a colon is a remark. The words
before it, with underscores in place of blanks, are the edit's name."""
import collections
import glob
import os
import re

TOP = os.path.dirname(os.path.dirname(os.path.realpath(__file__)))
Edit = collections.namedtuple("Edit", "name path number lines")
FUNCTION = re.compile(r"(?m)^( *)(?:pub(?:\(\w+\))? )?(?:const )?fn (\w+)")


def text_of(path):
    with open(path, encoding="utf-8") as file:
        return file.read()


def name_of(heading):
    return heading.partition(":")[0].strip().replace(" ", "_")


def beyond(crate, top=TOP):
    """The edits of audit/CRATE.edits, in their order; `number` is the line of the heading."""
    path, found = f"{top}/audit/{crate}.edits", []
    for number, line in enumerate(text_of(path).split("\n") if os.path.isfile(path) else [], 1):
        if line.startswith("# "):
            found.append(Edit(name_of(line[2:]), path, number, []))
        elif line.strip() and found:
            found[-1].lines.append(line)
    return [it._replace(lines=tuple(it.lines)) for it in found]


def of_gate(crate, top=TOP):
    """The edits of crates/CRATE/must-fail/."""
    paths = sorted(glob.glob(f"{top}/crates/{crate}/must-fail/*.edit"))
    return [Edit(os.path.basename(it)[:-5], it, 1, tuple(text_of(it).split("\n"))) for it in paths]


def audited(top=TOP):
    """The crates that have a file in audit/."""
    return sorted(os.path.basename(it)[:-6] for it in glob.glob(f"{top}/audit/*.edits"))


def pairs_of(edit):
    """The edit's (file, old, new), one after the other."""
    found, file, old = [], "", ""
    for line in edit.lines:
        if line.startswith("file: "):
            file = line[6:].strip()
        elif line.startswith("old: "):
            old = line[5:]
        elif line.startswith("new:"):
            found.append((file, old, line[4:].removeprefix(" ")))
    return found


def function_of(folder, edit):
    """The name of the one function whose body the edit turns, in the sources of its crate's folder, or None."""
    names = set()
    for file, old, _ in pairs_of(edit):
        text = text_of(f"{folder}/{file}")
        at = text.find(old)
        above = [it for it in FUNCTION.finditer(text, 0, max(at, 0)) if f"\n{it[1]}}}\n" in text[at:] + "\n"]
        closed = above and re.search(rf"(?m)^{above[-1][1]}}}$", text[above[-1].end() : at])
        names.add(above[-1][2] if above and not closed and "{" in text[above[-1].end() : at] else None)
    return names.pop() if len(names) == 1 else None


def faults(crate, top=TOP):
    """What is wrong with the form of a crate's edits: a name that stands twice, a heading without an edit, another line."""
    found, names = [], set()
    for edit in beyond(crate, top) + of_gate(crate, top):
        where = f"{os.path.relpath(edit.path, top)}:{edit.number}"
        if edit.name in names:
            found.append(f"{where}: a second edit of {crate} is called {edit.name}")
        if not pairs_of(edit) or any(not file or not old for file, old, _ in pairs_of(edit)):
            found.append(f"{where}: {edit.name} lacks one of its lines file:, old:, new:")
        if odd := [it for it in edit.lines if it.strip() and not it.startswith(("file: ", "old: ", "new:"))]:
            found.append(f"{where}: {edit.name} has a line that is none of file:, old:, new: ({odd[0][:40]})")
        names.add(edit.name)
    return found

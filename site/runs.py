"""The runs of a tracker: the folder of each, the runner that carries it out, what ends it, and the file that is kept of it."""
import fcntl
import math
import os
import pwd
import re
import select
import shutil
import signal
import subprocess
import time
from pathlib import Path

from common import SECOND, moment, put, sync

KEY = r"[A-Z0-9@#$]{1,16}/\d{4}-\d\d-\d\dT\d\d:\d\d/\d{3}"
KILLED, OVER_LIMIT = "KILL", "LIMT"     # the codes of what was ended
GRACE = 10                  # seconds from SIGTERM to SIGKILL
GLANCE = 0.2                # seconds between two looks at an output that may become too long
MEGABYTE = 1_000_000


class Run:
    """The folder of a run, named by the number of the report that claimed its start."""

    def __init__(self, folder):
        self.folder, self.number = folder, int(folder.name)

    def read(self, name):
        """What stands in one of its files; None where there is none."""
        try:
            return (self.folder / name).read_text(encoding="utf-8", errors="replace")
        except FileNotFoundError:
            return None

    def exit_status(self):
        told = self.read("status")
        return told and int(told.split()[0])

    def runner(self):
        """The number of its runner, which is that of its session too; None where nothing has begun."""
        told = re.match(r"\d+ ", self.read("begun") or "")
        return told and int(told[0])

    def killed(self):
        """The code of what is to be ended, and since how many seconds; or None."""
        told = self.read("killed")
        return told and (told.split()[0], time.monotonic() - float(told.split()[1]))

    def age(self):
        """Since how many seconds its command runs; 0 where that isn't known."""
        begun = (self.read("begun") or "").split()
        return time.monotonic() - float(begun[2]) if len(begun) == 3 else 0

    def summary(self, told):
        """A line of what became of it."""
        begun, status = (self.read("begun") or "never").strip(), (self.read("status") or "not known").strip()
        since = begun.split()[1] if self.runner() else begun
        return f"plandesk: {self.read('op')}, begun {since}, exit status {status}, {told}\n"

    def lock(self):
        """Its lock, or None where a runner or a command has it."""
        handle = os.open(self.folder / "lock", os.O_RDWR | os.O_CREAT, 0o644)
        try:
            fcntl.flock(handle, fcntl.LOCK_EX | fcntl.LOCK_NB)
            return handle
        except BlockingIOError:
            os.close(handle)
            return None

    def cut(self, megabytes):
        """Takes away what is too much of its output; a last line says so. Whoever writes goes on behind that."""
        most, line = int(megabytes * MEGABYTE), f"\nplandesk: cut, at {megabytes:g} megabytes\n".encode()
        try:
            output = os.open(self.folder / "output", os.O_WRONLY | os.O_APPEND)
        except FileNotFoundError:
            return
        if os.fstat(output).st_size > most + len(line):
            os.ftruncate(output, most)
            os.write(output, line)
        os.close(output)


# The runner

def carry_out(run, lock, order, mask):
    """The runner: a process of its own, which the tracker's end doesn't reach. The lock is its own, and the command's. `begun`
    is written by the command's process, which then is the command: so whoever kills the runner doesn't keep it from running."""
    os.setsid()
    signal.signal(signal.SIGHUP, signal.SIG_IGN)        # (it has the tracker's words, and so may be taken for it)
    signal.pthread_sigmask(signal.SIG_SETMASK, ())
    runner, surroundings = os.getpid(), surroundings_of(run, order)
    output = os.open(run.folder / "output", os.O_WRONLY | os.O_CREAT | os.O_TRUNC | os.O_APPEND, 0o640)
    command = subprocess.Popen(["/bin/sh", "-c", order.command], stdin=subprocess.DEVNULL, stdout=output,
                               stderr=subprocess.STDOUT, env=surroundings, pass_fds=(lock,),
                               preexec_fn=lambda: become_command(run, runner, order.user, mask))
    os.close(output)
    status = watch(run, command, order)
    while True:
        try:
            put(run.folder / "status", f"{status if status >= 0 else 128 - status} {moment(form=SECOND)}\n")
            return
        except FileNotFoundError:
            return              # somebody took the folder away
        except OSError:
            time.sleep(5)       # a full disk, say: what came of the command isn't to be lost


def surroundings_of(run, order):
    key = run.read("op")
    application, arrival, number = key.split("/")
    told = {"OP": key, "APPLICATION": application, "ARRIVAL": arrival, "NUMBER": number, "WS": order.workstation,
            "RUN": str(run.folder.resolve())}
    found = {**os.environ, **{f"PLANDESK_{name}": text for name, text in told.items()}}
    if order.user:
        person = pwd.getpwnam(order.user)
        found.update(USER=order.user, LOGNAME=order.user, HOME=person.pw_dir, SHELL=person.pw_shell or "/bin/sh")
    return found


def become_command(run, runner, user, mask):
    """In the command's process: says that it has begun, and is then no more the tracker's. Where it can't be the user's, the
    command is over, with a status of its own."""
    put(run.folder / "begun", f"{runner} {moment(form=SECOND)} {time.monotonic():.0f}\n")
    for one in (signal.SIGHUP, signal.SIGINT, signal.SIGQUIT):
        signal.signal(one, signal.SIG_DFL)
    os.umask(mask)
    if user:
        try:
            person = pwd.getpwnam(user)
            if os.geteuid() != person.pw_uid:
                os.initgroups(user, person.pw_gid)
                os.setgid(person.pw_gid)
                os.setuid(person.pw_uid)
            os.chdir(person.pw_dir if os.access(person.pw_dir, os.X_OK) else "/")
        except (OSError, KeyError) as fault:
            os.write(2, f"plandesk: it can't run as {user}: {fault}\n".encode())
            os._exit(126)


def watch(run, command, order):
    """The exit status of a command, whose output is cut, and which is ended once it is over its limit."""
    until, is_over, ended = time.monotonic() + 60 * (order.limit or math.inf), False, select.poll()
    handle = os.pidfd_open(command.pid)
    ended.register(handle, select.POLLIN)
    while not ended.poll(1000 * max(0, min(GLANCE if order.output else 60, until - time.monotonic()))):
        if order.output:
            run.cut(order.output)
        is_over = time.monotonic() >= until
        if is_over:
            end(run, OVER_LIMIT)
            break
    status = command.wait()
    os.close(handle)
    if order.output:
        run.cut(order.output)
    return status or (124 if is_over else 0)


# What ends a run

def end(run, code):
    """Ends all that runs of it, by SIGTERM, and by SIGKILL where that isn't enough; whether nothing is left."""
    mark(run, code)
    begun, told = time.monotonic(), set()
    while time.monotonic() < begun + 3 * GRACE:
        if time.monotonic() < begun + GRACE:
            is_left = press(run, signal.SIGTERM, told)
        else:
            is_left = press(run, signal.SIGKILL, set())
        if not is_left:
            return True
        time.sleep(0.1)
    return False


def mark(run, code):
    """Says that it is to be ended. Whatever comes of it is then an error of this code, which a kill of who ends it doesn't
    change."""
    try:
        if run.killed() is None:
            put(run.folder / "killed", f"{code} {time.monotonic():.0f}\n")
    except OSError:
        pass                    # a full disk, say: it is ended nevertheless, and told by its exit status


def press(run, name, told):
    """Sends a signal to what runs of it, but not to whom it was sent already; whether anything runs."""
    found = members(run)
    for process, handle in found.items():
        try:
            if process not in told:
                signal.pidfd_send_signal(handle, name)
            told.add(process)
        except (ProcessLookupError, PermissionError):
            pass                # it has ended, or may only be ended by another
        os.close(handle)
    return bool(found)


def members(run):
    """What runs of it, but for its runner, by process: handles, which no other process comes to have. These are whoever has its
    lock open (a tracker does too, for a moment, and has its own), and the session of its runner. That number is no other
    session's while somebody who has the lock is in it; and where nobody is, it counts for nothing."""
    runner = run.runner()
    if runner is None:
        return {}
    lock, own = identity(run.folder / "lock"), identity(run.folder.parent.parent / "lock")
    seen = []
    for process, handle, session, files in processes():
        if session == runner or lock in files and own not in files:
            seen.append((process, handle, session == runner, lock in files))
        else:
            os.close(handle)
    is_its_own = any(in_session and has_lock and lives(handle) for _, handle, in_session, has_lock in seen)
    found = {process: handle for process, handle, in_session, _ in seen
             if process not in (runner, os.getpid()) and (is_its_own or not in_session)}
    for process, handle, *_ in seen:
        if process not in found:
            os.close(handle)
    return found


def processes():
    """Each process that runs: its number, a handle, its session and the files that it has open."""
    for place in Path("/proc").glob("[0-9]*"):
        try:
            handle = os.pidfd_open(int(place.name))
        except OSError:
            continue            # it has ended
        try:
            state, _, _, session = (place / "stat").read_text(errors="replace").rpartition(")")[2].split()[:4]
            if state in "ZX":
                raise ProcessLookupError
            yield int(place.name), handle, int(session), open_files(place)
        except OSError:
            os.close(handle)


def open_files(place):
    found = set()
    try:
        for one in (place / "fd").iterdir():
            try:
                found.add(identity(one))
            except OSError:
                pass            # it was closed meanwhile
    except OSError:
        pass                    # another user's
    return found


def identity(path):
    told = os.stat(path)
    return told.st_dev, told.st_ino


def lives(handle):
    try:
        signal.pidfd_send_signal(handle, 0)
        return True
    except PermissionError:
        return True
    except ProcessLookupError:
        return False


# The runs of a folder

class Runs:
    """Those that are under way, and a file of each one that is over. What is no run's is passed over, and told."""

    def __init__(self, folder, pass_over):
        self.under, self.done, self.pass_over = folder / "runs", folder / "done", pass_over

    def make_folders(self):
        for folder in (self.under, self.done):
            folder.mkdir(parents=True, exist_ok=True)

    def under_way(self):
        found = []
        for place in sorted(self.under.glob("*")):
            key = Run(place).read("op") if re.fullmatch(r"\d{9,}", place.name) and place.is_dir() else "none"
            if key and re.fullmatch(KEY, key):
                found.append(Run(place))
            elif key and not place.name.endswith(".over"):
                self.pass_over(place)
        return found

    def behind(self, last):
        """What became of the runs with later numbers, by number."""
        found = {run.number: f"{run.read('op')}, exit status {run.exit_status()}" for run in self.under_way()}
        for path in self.done.glob("*"):
            if is_kept(path.name):
                found[int(path.name.partition(".")[0])] = last_line(path).strip()
        return {number: text for number, text in found.items() if number > last}

    def folder_of(self, number):
        return self.under / f"{number:09}"

    def kept_as(self, number, key):
        return self.done / f"{number:09}.{key.replace('/', '.')}"

    def is_known(self, number, key):
        return (self.folder_of(number) / "op").exists() or self.kept_as(number, key).exists()

    def was_killed(self, number):
        """Whether somebody ended it, and not its limit."""
        killed = Run(self.folder_of(number)).killed()
        return bool(killed) and killed[0] == KILLED

    def make(self, number, key, begun=None):
        folder = self.folder_of(number)
        folder.mkdir(exist_ok=True)
        if begun:
            put(folder / "begun", begun)
        put(folder / "op", key)
        sync(folder.parent)

    def keep(self, number, told):
        """The end was told; what is left is to ask for the rerun."""
        if self.folder_of(number).exists():
            put(self.folder_of(number) / "told", told + "\n")

    def put_away(self, number, told):
        """Keeps what a run printed, with a last line that says what became of it, and takes its folder away. After a kill it may
        be done once more."""
        folder = self.folder_of(number)
        if folder.exists():
            put(folder / "told", told + "\n")
            kept = self.kept_as(number, Run(folder).read("op"))
            if not kept.exists():
                end_with(folder / "output", Run(folder).summary(told))
                os.rename(folder / "output", kept)
                sync(self.done)
            over = folder.with_name(folder.name + ".over")
            os.rename(folder, over)
            sync(self.under)
            shutil.rmtree(over, ignore_errors=True)

    def delete_old(self, days, megabytes):
        """Deletes what is kept for longer than so many days, of the oldest what is above so many megabytes, and what a kill
        left."""
        left, now = megabytes * MEGABYTE, time.time()
        for name in sorted(os.listdir(self.done), reverse=True):
            path = self.done / name
            told = path.lstat()
            is_old = now - told.st_mtime > days * 86400
            if is_kept(name):
                left -= 512 * told.st_blocks
                if is_old or left < 0:
                    path.unlink()
            elif not re.fullmatch(r"\d{9,}", name):
                self.pass_over(path)
            elif is_old:
                shutil.rmtree(path, ignore_errors=True)     # (an earlier version kept a folder of each run)
        for path in self.under.glob("*.over"):
            shutil.rmtree(path, ignore_errors=True)


def is_kept(name):
    """Whether a file of this name is kept of a run."""
    number, _, key = name.partition(".")
    return bool(re.fullmatch(r"\d{9,}", number) and re.fullmatch(KEY, key.replace(".", "/")))


def last_line(path):
    """The last line of a file, which may be long; without one nothing."""
    try:
        with open(path, "rb") as file:
            file.seek(max(0, os.path.getsize(path) - 1000))
            return (file.read().decode(errors="replace").splitlines(True) or [""])[-1]
    except FileNotFoundError:
        return ""


def end_with(path, line):
    """Lets a file end with this line."""
    before = last_line(path)
    with open(path, "ab") as file:
        if before != line:
            file.write((line if before.endswith("\n") or not before else "\n" + line).encode())
        file.flush()
        os.fsync(file.fileno())

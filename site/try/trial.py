"""What trials of the site stand on, the site's own modules too: a folder with a desk, trackers over it, what its journal
tells."""
import ctypes
import json
import os
import random
import shutil
import signal
import subprocess
import sys
import tempfile
import time
from concurrent.futures import ThreadPoolExecutor
from contextlib import contextmanager
from importlib.machinery import SourceFileLoader
from importlib.util import module_from_spec, spec_from_loader
from pathlib import Path

HERE = Path(__file__).resolve().parent.parent
sys.path.insert(0, str(HERE))

from common import ALWAYS, PROGRAM, Desk, NoAnswer, free_port, key_of, moment, words_of

os.environ["TZ"] = "UTC"        # (one zone for all that is started)
time.tzset()
LOOKS = ("/health", "/occurrences", "/ready/{workstation}", "/started", "/started/{workstation}", "/report/occurrences",
         "/report/errors", "/report/late", "/report/ready/{workstation}", "/show/started", "/show/resources", "/show/workstations",
         "/show/trackers", "/show/operations/{occurrence}", "/show/dependencies/{occurrence}", "/show/reach/{occurrence}/10",
         "/show/intervals/{workstation}", "/why/{occurrence}/010", "/why/{occurrence}/10", "/forecast", "/board", "/")
PATIENCE = float(os.environ.get("PATIENCE", 60))        # seconds after which what was to come is missed
NEW_MOUNTS = 0x20000
FAKETIME = next(Path("/usr/lib").glob("*/faketime/libfaketime.so.1"), None)     # Debian's faketime


class Wrong(Exception):
    """Something isn't as it has to be."""


def judge(is_so, what, *got):
    if not is_so:
        raise Wrong(f"{what}: " + ", ".join(repr(one)[:800] for one in got))


def trial_words(text):
    words = words_of(text)
    words.add_argument("--plandesk", type=Path, default=PROGRAM, help="the program; where bin/plandesk has it, if not given")
    return words


def program_of(given, *needed):
    """The program that is to be tried, where it and the other programs that are needed are there. A trial that is ended
    takes down what it started."""
    signal.signal(signal.SIGTERM, lambda *_: sys.exit(2))
    missing = [name for name in needed if not shutil.which(name)]
    if not os.access(given.plandesk, os.X_OK):
        missing.append(f"{given.plandesk} (bin/build proves and builds it)")
    if missing:
        print(f"{Path(sys.argv[0]).name}: missing are {', '.join(missing)}", file=sys.stderr)
        sys.exit(2)
    return given.plandesk.resolve()


def module_of(name):
    """A program of the site as a module."""
    sys.dont_write_bytecode = True
    loader = SourceFileLoader(name, str(HERE / name))
    module = module_from_spec(spec_from_loader(name, loader))
    loader.exec_module(module)
    return module


def try_beside(trials, most=4):
    """Tries them beside each other, each by a program of its own, and says in order what each found; the exit status."""
    begun, status = [], 0

    def tried(name):
        words = [sys.executable, *sys.argv, "--only", name]
        program = subprocess.Popen(words, stdout=subprocess.PIPE, stderr=subprocess.PIPE)
        begun.append(program)
        return program, program.communicate()

    with ThreadPoolExecutor(most) as pool:
        try:
            for program, (told, wrong) in pool.map(tried, trials):
                print(told.decode(), end="", flush=True)
                print(wrong.decode(), end="", file=sys.stderr, flush=True)
                status = max(status, abs(program.returncode))
        finally:
            pool.shutdown(wait=False, cancel_futures=True)
            for program in begun:
                program.terminate()
    return status


def try_each(trials, given):
    """Tries one after another, or --only one, and says what each found; the exit status."""
    status = 0
    for name in [given.only] if given.only else trials:
        try:
            print(f"{name}: {trials[name](given)}", flush=True)
        except Wrong as wrong:
            status = 1
            print(f"{name}: WRONG: {wrong}", file=sys.stderr, flush=True)
    return status


def looks_of(workstation, occurrence):
    """Each path under which a desk shows something, with a workstation and an occurrence of its plan."""
    return [path.format(workstation=workstation, occurrence=occurrence) for path in LOOKS]


def occurrence_of(key, operations, after=(), priority=5, deadline=None, not_before=""):
    """An occurrence's records, as an addition has them. `operations` has of each number its workstation and minutes, `after`
    pairs of numbers, of which the second follows the first."""
    key = key.replace("/", ",")
    return "".join(f"{line}\n" for line in [
        f"O,{key},{priority},{deadline or moment(600)},,,,,",
        *[f"P,{key},{number},{workstation},{minutes},0,0,{not_before}," for number, (workstation, minutes) in operations.items()],
        *[f"D,{key},{one},{key},{other},,," for one, other in after]])


def chain(numbers):
    """The pairs by which operations follow one another."""
    return list(zip(numbers, list(numbers)[1:]))


def plan_of(workstations, *texts):
    """A plan: workstations that are always open, of each name its attribute and servers, and other records."""
    return "".join(f"W,{name},{attribute},,,,,,,\nI,{name},{ALWAYS},{servers},0,0,,,\n"
                   for name, (attribute, servers) in workstations.items()) + "".join(texts)


def run(*words, **more):
    """A program that is run to its end: its status, and what it prints."""
    ended = subprocess.run([str(word) for word in words], stdout=subprocess.PIPE, stderr=subprocess.STDOUT, text=True, **more)
    return ended.returncode, ended.stdout


def done(*words, **more):
    """What a program prints that has to succeed."""
    status, told = run(*words, **more)
    judge(status == 0, " ".join(str(word) for word in words), status, told)
    return told


def wait_until(is_so, what, pause=0.05):
    """What it comes to, once it is so."""
    end = time.monotonic() + PATIENCE
    while True:
        found = is_so()
        if found:
            return found
        if time.monotonic() > end:
            raise Wrong(f"not within {PATIENCE:g} seconds: {what}")
        time.sleep(pause)


class Site:
    """A folder with night.db, its journal, a desk and its trackers."""

    def __init__(self, program, folder):
        self.program, self.folder, self.started, self.process = program, Path(folder).resolve(), [], None
        self.journal = self.folder / "night.journal"
        self.address = f"127.0.0.1:{free_port()}"
        self.desk = Desk(self.address)

    def plandesk(self, *words):
        """What a command prints that has to succeed."""
        return done(self.program, *words, cwd=self.folder)

    def tool(self, name, *words, **more):
        """The exit status of a program of the site, and what it prints."""
        return run(HERE / name, *words, cwd=self.folder, **more)

    def load(self, plan, at):
        (self.folder / "plan.csv").write_text(plan)
        return self.plandesk("load", "--db", "night.db", "--plan", "plan.csv", "--at", at)

    def start_desk(self, *words):
        """A desk that listens."""
        port = self.address.rpartition(":")[2]
        self.process = subprocess.Popen(
            [self.program, "desk", "--db", "night.db", "--port", port, "--journal", self.journal, *words],
            cwd=self.folder, stdout=subprocess.PIPE, stderr=subprocess.PIPE)
        told = self.process.stdout.readline()
        judge(told == b"listening\n", "a desk that listens", told, told or self.process.stderr.read())

    def kill_desk(self):
        kill(self.process)
        self.close_desk()

    def close_desk(self):
        self.process.stdout.close()
        self.process.stderr.close()

    def start_tracker(self, name, *words, **more):
        """A tracker of this name, by the table NAME.table, with its folder trackers/NAME and what it says in NAME.said."""
        said = open(self.folder / f"{name}.said", "ab")
        tracker = [HERE / "tracker", "--name", name, "--folder", f"trackers/{name}", "--table", f"{name}.table",
                   "--desk", self.address, *words]
        self.started.append(subprocess.Popen([*map(str, tracker)], cwd=self.folder, stdout=said, stderr=said,
                                             start_new_session=True, **more))
        said.close()
        return self.started[-1]

    def do(self, do, at, **more):
        """A request of an operator: its status and its reply."""
        return self.desk.post("/operator", json.dumps({"at": at, "do": do, **more}))

    def statuses(self, occurrence):
        """The status of each operation of an occurrence, by its key."""
        return {f"{occurrence}/{int(row[0]):03}": row[2] for row in self.desk.rows(f"/show/operations/{occurrence}")}

    def errors(self):
        """The keys of what is in error."""
        return [key_of(*row[:3]) for row in self.desk.rows("/report/errors")]

    def answered(self):
        """Each request in the journal with its status: None where no answer's line follows."""
        told = []
        for line in self.journal.read_text().splitlines():
            try:
                entry = json.loads(line)
            except ValueError:
                continue                # cut short by a kill
            if "path" in entry:
                told.append([json.loads(entry["body"]), None])
            else:
                told[-1][1] = entry["status"]
        return told

    def accepted(self, name):
        """The accepted reports of a tracker, by number. Each has the same text however often it was answered."""
        found = {}
        for report, status in self.answered():
            if status == 200 and report.get("tracker") == name:
                judge(found.setdefault(report["number"], report) == report, "two reports of one number", report, found)
        return found

    def end(self):
        """Nothing of it runs any more."""
        for process in [*self.started, *([self.process] if self.process else [])]:
            kill(process)
        while kill_those(self.inside()):
            time.sleep(0.02)

    def inside(self, chosen=None):
        """The processes that run in its folder, and so are its own, or of these the chosen ones: each a handle, which no
        other process comes to have."""
        found = []
        for place in Path("/proc").glob("[0-9]*"):
            if chosen is None or int(place.name) in chosen:
                try:
                    handle = os.pidfd_open(int(place.name))
                except OSError:
                    continue            # it has ended
                if is_inside(place, self.folder):
                    found.append(handle)
                else:
                    os.close(handle)
        return found

    def kill_runner(self, chance=random):
        """Kills a runner whose command hasn't ended, be it that nothing was begun yet, and not the command; whether there was
        one."""
        runners = children_of({process.pid for process in self.started})
        for path in self.folder.glob("trackers/*/runs/*/begun"):
            try:
                if not path.with_name("status").exists():
                    runners.append(int(path.read_text().split()[0]))
            except OSError:
                pass                    # its end was told meanwhile
        return bool(runners) and kill_those(self.inside([chance.choice(runners)]))


@contextmanager
def replicas(sites, patience="2"):
    """An etcd of one member, and a replica before the desk of each site: their addresses."""
    etcd, peer, *addresses = [f"127.0.0.1:{free_port()}" for _ in range(2 + len(sites))]
    programs = [["etcd", "--name", "m1", "--data-dir", "etcd", "--listen-client-urls", f"http://{etcd}",
                 "--advertise-client-urls", f"http://{etcd}", "--listen-peer-urls", f"http://{peer}",
                 "--initial-advertise-peer-urls", f"http://{peer}", "--initial-cluster", f"m1=http://{peer}"]]
    programs += [[HERE / "replica", "--name", f"m{at}", "--desk", site.address, "--etcd", etcd, "--listen", address,
                  "--patience", patience] for at, (site, address) in enumerate(zip(sites, addresses), 1)]
    processes = []
    try:
        for words, site in zip(programs, [sites[0], *sites]):
            with open(site.folder / "replica.told", "ab") as told:
                processes.append(subprocess.Popen([str(word) for word in words], cwd=site.folder, stdout=told, stderr=told))
        for address in addresses:
            wait_until(lambda: has_log(address), "a replica", 0.2)
        yield addresses
    finally:
        for process in processes:
            kill(process)


def has_log(address):
    """Whether a replica has found the log."""
    try:
        return Desk(address).list("/log")["head"] is not None
    except NoAnswer:
        return False


def children_of(parents):
    """The processes that one of these started."""
    found = []
    for place in Path("/proc").glob("[0-9]*"):
        try:
            if int((place / "stat").read_text().rpartition(")")[2].split()[1]) in parents:
                found.append(int(place.name))
        except OSError:
            pass                        # it has ended
    return found


def is_inside(place, folder):
    """Whether a process of /proc runs in this folder or below it."""
    try:
        at = Path(os.readlink(place / "cwd"))
    except OSError:
        return False
    return at == folder or folder in at.parents


def kill(process):
    process.kill()
    process.wait()


def kill_those(processes):
    """Kills processes by their handles; whether there were any."""
    for handle in processes:
        try:
            signal.pidfd_send_signal(handle, signal.SIGKILL)
        except ProcessLookupError:
            pass
        os.close(handle)
    return bool(processes)


@contextmanager
def room():
    """A folder for a trial, which is taken away, whatever still writes there."""
    folder = tempfile.mkdtemp(prefix="site-")
    try:
        yield folder
    finally:
        shutil.rmtree(folder, ignore_errors=True)


@contextmanager
def small_disk(folder, size):
    """A disk of so many bytes at a folder, which this program and what it starts have alone. It needs root."""
    judge(ctypes.CDLL(None).unshare(NEW_MOUNTS) == 0, "mounts of its own")
    judge(os.system(f"mount --make-rprivate / && mount -t tmpfs -o size={size} tmpfs {folder}") == 0, "a small disk")
    try:
        yield
    finally:
        os.system(f"umount {folder}")

"""What the scripts beside it share: building, and the CPU time of one question to us or to another solver."""

import contextlib
import math
import os
import pathlib
import re
import resource
import shutil
import signal
import statistics
import subprocess
import sys
import threading

ROOT = pathlib.Path(__file__).resolve().parent.parent
BUILD = ROOT / "target" / "bench"
LIMIT = 3  # CPU seconds of a question
MEMORY = 4 << 30  # bytes of a process
SHORT = 0.1  # a peer that needs less CPU time than this is run REPEATS times, and the quickest run counts
REPEATS = 5

# cvc5: without nested elimination it does not end on most sheets of the alternation families.
PEERS = {
    "z3": (["z3", "-smt2"], "smt2"),
    "cvc5": (["cvc5", "--lang=smt2", "--cegqi-nested-qe"], "smt2"),
    "depqbf": (["depqbf"], "qdimacs"),
}
TRIVIAL = {
    "smt2": "(set-logic LIA)\n(declare-const x Bool)\n(assert (forall ((y Bool)) (or x y)))\n(check-sat)\n",
    "qdimacs": "p cnf 2 1\ne 1 0\na 2 0\n1 2 0\n",
}
# The commands that prove and build our programs.
WRITES = {"interlock": "bin/interlock", "from_qdimacs": "bin/qdimacs", "to_normal": "bin/normal"}
YES, NO = "yes", "no"
SAID = {"sat": YES, "SAT": YES, "unsat": NO, "UNSAT": NO}


def fail(why):
    sys.exit(f"{pathlib.Path(sys.argv[0]).name}: {why}")


def need(*programs):
    for program in programs:
        if not shutil.which(program):
            hint = " (bench/setup installs it)" if program in PEERS else ""
            fail(f"no {program} on this machine{hint}")


def compiled(name, source, *options):
    """The Rust program, built under target/."""
    need("rustc")
    BUILD.mkdir(parents=True, exist_ok=True)
    program = BUILD / name
    command = ["rustc", "--edition", "2021", "-D", "warnings", "-o", program]
    if subprocess.run([*command, *options, ROOT / "bench" / "src" / source]).returncode != 0:
        fail(f"{source} does not build")
    return program


def archive():
    """The archive, or what the variable names."""
    path = pathlib.Path(os.environ.get("HAMMERLOOM_ARCHIVE", ROOT / "target" / "staticlib" / "libhammerloom.a"))
    if not path.is_file():
        fail(f"no archive at {path} (bin/archive writes it)")
    return path.resolve()


def built(name, variable):
    """The program of that name under target/bin, which a command of bin/ writes, or what the variable names."""
    path = pathlib.Path(os.environ.get(variable, ROOT / "target" / "bin" / name))
    if not os.access(path, os.X_OK):
        fail(f"no program at {path} ({WRITES[name]} writes it)")
    return path.resolve()


def printed(program, text):
    """What our program prints for a text."""
    ended = subprocess.run([program], input=text, capture_output=True, timeout=20 * LIMIT)
    if ended.returncode != 0 or ended.stderr:
        fail(f"{program} ended with status {ended.returncode}: {ended.stderr.decode(errors='replace')}")
    return ended.stdout


def ours_program(name="ours", path=None):
    """The program that asks the archive at that path, or the usual one."""
    return compiled(name, "ours.rs", "-C", "opt-level=2", "-C", f"link-arg={path or archive()}")


def sheets(what, *arguments):
    """The folder of the generated sheets, and the words of each line of their list."""
    folder = BUILD / what
    shutil.rmtree(folder, ignore_errors=True)
    folder.mkdir(parents=True)
    tool = compiled("sheets-tool", "main.rs")
    if subprocess.run([tool, what, folder, *arguments]).returncode != 0:
        fail("the sheets are not written")
    return folder, [line.split() for line in (folder / "list").read_text().splitlines()]


class Ended:
    """How a process ended: what it printed, the CPU seconds it used, its status, and whether it was stopped at the limit."""

    def __init__(self, command, limit=LIMIT):
        process = subprocess.Popen(command, stdin=subprocess.DEVNULL, stdout=subprocess.PIPE, stderr=subprocess.DEVNULL)
        # Set from outside, so that nothing of this program runs on the child's account; it may have ended already.
        with contextlib.suppress(ProcessLookupError):
            resource.prlimit(process.pid, resource.RLIMIT_CPU, (limit, limit + 1))
            resource.prlimit(process.pid, resource.RLIMIT_AS, (MEMORY, MEMORY))
        hung = threading.Timer(20 * limit, process.kill)
        hung.start()
        self.printed = process.stdout.read().decode(errors="replace")
        _, status, used = os.wait4(process.pid, 0)
        hung.cancel()
        process.stdout.close()
        process.returncode = self.status = os.waitstatus_to_exitcode(status)
        self.seconds = used.ru_utime + used.ru_stime
        self.stopped = self.status in (-signal.SIGXCPU, -signal.SIGKILL) or self.seconds >= limit


class Answer:
    """A verdict, or None if there was none within the limit, and its CPU seconds; no verdict counts as the limit. Ours has a word beside it."""

    def __init__(self, verdict, seconds, limit=LIMIT, word=None):
        self.verdict = verdict
        self.word = word
        self.seconds = seconds if verdict else limit


def wide(name):
    """Whether a family's or a sheet's name is a wide one's."""
    return name.startswith("wide")


def ask_ours(program, sheet, question, limit=LIMIT):
    """One call of the archive, in a process of its own that is stopped at the limit."""
    ended = Ended([program, sheet, question], limit)
    words = ended.printed.split()
    if ended.status == 0 and len(words) == 3:
        return Answer(words[0], float(words[2]), limit, words[1]) if float(words[2]) < limit else Answer(None, limit, limit)
    if ended.stopped:
        return Answer(None, limit, limit)
    fail(f"{sheet}: our call ended with status {ended.status}: {ended.printed}")


def count_ours(program, sheet, question, limit=5 * LIMIT):
    """One call of the archive under valgrind: its seconds are instructions. Programs run some fifty times slower there."""
    entry = "hammerloom_run_wide" if wide(sheet.name) else "hammerloom_run"
    count = ["valgrind", "--tool=callgrind", "--callgrind-out-file=/dev/null", f"--toggle-collect={entry}", "--log-fd=1"]
    ended = Ended([*count, program, sheet, question, "once"], limit)
    told = re.search(r"^(yes|no) ([0-9A-F]{8}|[0-9A-F]{16}) ", ended.printed, re.MULTILINE)
    counted = re.search(r"Collected : (\d+)", ended.printed)
    if ended.status == 0 and told and counted:
        return Answer(told[1], int(counted[1]), limit, told[2])
    if ended.stopped:
        return Answer(None, limit, limit)
    fail(f"{sheet}: our call under valgrind ended with status {ended.status}: {ended.printed}")


def ratio(programs, sheet, question, asked, calls):
    """The first program's time over the second's, each the quickest of some calls in turn; None where one did not end in time."""
    answers = []
    for _ in range(calls):
        answers += [asked(program, sheet, question) for program in programs]
        if not all(answer.verdict for answer in answers):
            return None
    if len({(answer.verdict, answer.word) for answer in answers}) > 1:
        fail(f"{sheet}: two answers")
    return min(answer.seconds for answer in answers[::2]) / min(answer.seconds for answer in answers[1::2])


def mean(ratios):
    return math.exp(math.fsum(map(math.log, ratios)) / len(ratios))


def peer_verdict(ended):
    if ended.stopped:
        return None
    word = re.search(r"^(sat|unsat|SAT|UNSAT)\b", ended.printed, re.MULTILINE)
    return SAID[word.group(1)] if word else None


def ask_peer(peer, sheet, limit=LIMIT):
    """The peer's process on the sheet, its start-up included; the name of the sheet is without its ending."""
    command, ending = PEERS[peer]
    file = f"{sheet}.{ending}"
    if not os.path.exists(file):
        return None
    return asked([*command, file], limit)


def asked(command, limit=LIMIT):
    ended = Ended(command, limit)
    verdict, seconds = peer_verdict(ended), ended.seconds
    if verdict and seconds < SHORT:
        seconds = min([seconds] + [Ended(command, limit).seconds for _ in range(REPEATS - 1)])
    return Answer(verdict, seconds, limit)


class StartUp:
    """The peer's CPU time on a trivial input, taken again and again in the course of a run, each time as for a sheet."""

    def __init__(self, peer):
        command, ending = PEERS[peer]
        file = BUILD / f"trivial.{ending}"
        file.write_text(TRIVIAL[ending])
        self.peer, self.command, self.samples = peer, [*command, file], []

    def take(self):
        answer = asked(self.command)
        if answer.verdict != YES:
            fail(f"{self.peer} does not answer a trivial question")
        self.samples.append(answer.seconds)

    def middle(self):
        return statistics.median(self.samples)

    def spread(self):
        """How far a sample lies from the middle one, in the middle."""
        return statistics.median(abs(sample - self.middle()) for sample in self.samples)


def version(peer):
    printed = subprocess.run([PEERS[peer][0][0], "--version"], capture_output=True, text=True)
    found = re.search(r"\d+(\.\d+)+", printed.stdout + printed.stderr)
    return f"{peer} {found.group(0)}" if found else peer


def machine():
    model = re.search(r"model name\s*:\s*(.*)", pathlib.Path("/proc/cpuinfo").read_text())
    return f"{model.group(1).strip() if model else 'unknown processor'}, {os.cpu_count()} cores"


def write_between(file, name, text):
    """Puts the text between the file's two marker lines of this name."""
    path = pathlib.Path(file)
    first, last = f"<!-- {name}: begin -->", f"<!-- {name}: end -->"
    before, found, rest = path.read_text().partition(first)
    _, found_too, after = rest.partition(last)
    if not (found and found_too):
        fail(f"{file} has no lines {first} and {last}")
    path.write_text(f"{before}{first}\n\n{text}\n\n{last}{after}")

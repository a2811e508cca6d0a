"""What dist/validate plays beside the proofs, and the report that it writes."""

import os
import platform
import re
import shutil
import signal
import subprocess
import threading
import time
from concurrent.futures import ThreadPoolExecutor
from dataclasses import dataclass
from itertools import groupby

from egasim_tools.base.files import TOP, read, sum_of
from egasim_tools.base.program import program, version_lines
from egasim_tools.base.tool import as_noted, fail

WHOLE = {"campaigns": 2000, "inputs": 20000, "images": 20000, "parts": 1}  # what a whole validation plays
SMALL = {"campaigns": 20, "inputs": 500, "images": 200, "parts": 50}
GATE, BUILT = ".ci/run", "out/egasim"  # the gate, and the program that it leaves
PASSED, FAILED, QUOTED, LEFT_OUT = "passed", "failed", "quoted", "left out"
COUNTS = re.compile(r".*\b\d+ passed, \d+ failed.*")
MOST_OF_LINE = 300  # letters of what a step tells that stand in the report


@dataclass
class Step:
    """A script of the checkout with its words, and the commands that it needs."""
    name: str
    words: list
    needs: tuple = ()
    lines: int = 1  # how many of its last lines have the counts


@dataclass
class Outcome:
    step: Step
    status: str
    told: list
    seconds: float = 0
    skipped: tuple = ()


def steps_of(numbers, seed, jobs):
    """All steps by these numbers, of which `campaigns` are dealt to so many calls of bench/compare, each with its own seed."""
    shares = [len(range(job, numbers["campaigns"], jobs)) for job in range(jobs)]
    compared = [Step(f"compare-{seed + job}", ["bench/compare", str(seed + job), str(share)], ("rustc",))
                for job, share in enumerate(shares) if share]
    return [
        Step("gate", [GATE], ("rt",)),
        Step("cases", ["cases/run"]), Step("streams", ["cases/streams"]), Step("examples", ["cases/examples/run"]),
        Step("edits", ["bench/edits"], ("rt",)),
        *compared,
        Step("fuzz", ["bench/fuzz", str(seed), str(numbers["inputs"]), str(jobs)], ("rustc", "cc")),
        Step("refuse", ["bench/refuse", "--part", f"1/{numbers['parts']}"], ("cc",)),
        Step("addresses", ["bench/escape"], (), 3),
        Step("images", ["bench/escape", str(seed), str(numbers["images"])]),
    ]


class Plays:
    """Plays steps, some at a time, and keeps what each says in a folder. If a call fails or is ended, none of them goes on."""

    def __init__(self, folder, called, top=TOP):
        self.folder, self.top, self.children, self.lock, self.is_over = folder, top, [], threading.Lock(), False
        self.environment = os.environ | {"EGASIM_PROGRAM": called}

    def outcomes(self, steps, jobs):
        with ThreadPoolExecutor(jobs) as pool:
            try:
                return list(pool.map(self.outcome, steps))
            except BaseException:
                pool.shutdown(wait=False, cancel_futures=True)
                self.end()
                raise

    def end(self):
        """Ends the steps that go on, and lets no other begin."""
        with self.lock:
            self.is_over = True
            for child in self.children:
                if child.poll() is None:
                    os.killpg(child.pid, signal.SIGTERM)

    def started(self, words, out, err):
        with self.lock:
            if self.is_over:
                raise InterruptedError
            command = [os.path.join(self.top, words[0]), *words[1:]]
            self.children.append(subprocess.Popen(command, cwd=self.top, stdin=subprocess.DEVNULL, stdout=out, stderr=err,
                                                  env=self.environment, start_new_session=True))
            return self.children[-1]

    def outcome(self, step):
        missing = [name for name in step.needs if not shutil.which(name)]
        if missing:
            return Outcome(step, LEFT_OUT, [f"there is no command {missing[0]}"])
        paths = [os.path.join(self.folder, f"{step.name}.{end}") for end in ("out", "err")]
        begin = time.monotonic()
        with open(paths[0], "wb") as out, open(paths[1], "wb") as err:
            child = self.started(step.words, out, err)
            status = PASSED if child.wait() == 0 else FAILED
        said, noted = (read(path).decode(errors="replace").splitlines() for path in paths)
        counts = counts_of_gate(said) if step.words == [GATE] else told_in(said, step.lines)
        return Outcome(step, status, counts or [f"status {child.returncode}"], time.monotonic() - begin,
                       tuple(line for line in noted if ": skipped: " in line))


def told_in(lines, count):
    """The last lines that aren't empty, as the report shows them."""
    return [as_noted(line.strip())[:MOST_OF_LINE] for line in lines if line.strip()][-count:]


def counts_of_gate(lines):
    """The counts of each step of the gate, the proofs first."""
    return told_in(filter(COUNTS.fullmatch, lines), len(lines))


def quoted(name):
    """What the log of a gate that ran elsewhere tells."""
    content = read(name)
    return Outcome(Step("gate", [f"log with checksum {sum_of(content)}"]), QUOTED,
                   counts_of_gate(content.decode(errors="replace").splitlines()) or ["no counts"])


# The report


def checkout(top=TOP):
    """The commit of the checkout, and whether anything of it was changed."""
    clean = {name: value for name, value in os.environ.items() if not name.startswith("GIT_")}
    def told(*words):
        return subprocess.run(["git", "-C", top, *words], capture_output=True, text=True, env=clean, check=False).stdout.strip()
    changes = ", with changes that no commit has" if told("status", "--porcelain", "-uno") else ""
    return (told("rev-parse", "HEAD") or "none") + changes


def compiler(name):
    """A compiler with its version, the first number of the line that it prints."""
    if not shutil.which(name):
        return f"no {name}"
    told = subprocess.run([name, "--version"], capture_output=True, text=True, check=False).stdout
    return f"{name} {next(iter(re.findall(r'(?<= )[0-9]+[.][0-9.]+', told)), 'of an unknown version')}"


def value_in(path, key):
    """What stands behind a key in a file of /proc."""
    lines = read(path).decode().splitlines() if os.path.exists(path) else []
    return next((line.partition(":")[2].strip() for line in lines if line.startswith(key)), "unknown")


def machine():
    try:
        system = platform.freedesktop_os_release()["PRETTY_NAME"]
    except (OSError, KeyError):
        system = platform.system()
    return [f"Machine: {platform.machine()}, {os.cpu_count()} processors ({value_in('/proc/cpuinfo', 'model name')}), "
            f"memory {value_in('/proc/meminfo', 'MemTotal')}",
            f"System: {system}, Linux {platform.release()}, {' '.join(platform.libc_ver())}, Python {platform.python_version()}, "
            f"{compiler('rustc')}, {compiler('cc')}"]


def time_text(seconds):
    return time.strftime("%Y-%m-%d %H:%M", time.gmtime(seconds))


def shortages(numbers, outcomes):
    """What wasn't played, and why: steps, numbers below those of a whole validation, and what steps say they skip."""
    for outcome in outcomes:
        if outcome.status in (LEFT_OUT, QUOTED):
            of_log = "it didn't run here, and whether its log is of this commit isn't checked"
            yield f"{outcome.step.name}: {of_log if outcome.status == QUOTED else outcome.told[0]}"
    fewer = [f"{name} {numbers[name]} for {WHOLE[name]}" for name in WHOLE if numbers[name] != WHOLE[name]]
    if fewer:
        yield f"numbers of a whole validation are others: {', '.join(fewer)}"
    for outcome in outcomes:
        yield from map(as_noted, outcome.skipped)


def others(outcomes, top=TOP):
    """The scripts of bench/ that no step calls."""
    called = {outcome.step.words[0] for outcome in outcomes}
    files = [entry for entry in os.scandir(os.path.join(top, "bench")) if entry.is_file() and os.access(entry.path, os.X_OK)]
    return sorted(entry.name for entry in files if f"bench/{entry.name}" not in called)


def report(version, commit, begun, numbers, outcomes, top=TOP):
    """The lines of the report."""
    failed = [outcome.step.name for outcome in outcomes if outcome.status == FAILED]
    lines = list(shortages(numbers, outcomes))
    verdict = f"failed: {', '.join(failed)}" if failed else "passed, but for what was left out" if lines else "passed"
    yield from [f"## {version[0]}, {time_text(begun)[:10]}: {verdict}", ""]
    yield f"- Time: {time_text(begun)} to {time_text(time.time())[11:]} UTC"
    yield f"- Checkout: commit {commit}"
    yield from (f"- {line[:1].upper()}{line[1:]}" for line in version[1:] if not line.startswith("commit "))
    yield from (f"- {line}" for line in machine())
    yield from ["", "Steps:", ""]
    played = [outcome for outcome in outcomes if outcome.status != LEFT_OUT]
    for (status, told), equal in groupby(played, lambda outcome: (outcome.status, outcome.told)):
        equal = list(equal)
        took = f" in {max(outcome.seconds for outcome in equal):.0f} s" if status != QUOTED else ""
        commands = ", ".join(f"`{' '.join(outcome.step.words)}`" for outcome in equal)
        yield f"- {commands} {status}{took}{', each' if len(equal) > 1 else ''}: {'; '.join(told)}"
    yield from ["", "Left out:", ""]
    yield from (f"- {line}" for line in lines)
    yield f"- of `bench/`: {', '.join(others(outcomes, top))}"


def validate(folder, asked):
    """Plays all, writes the report, and answers what came of each step."""
    if os.path.lexists(folder):
        fail(f"{folder} is there already")
    folder = os.path.abspath(folder)
    begun, commit, steps = time.time(), checkout(), steps_of(asked.numbers, asked.seed, asked.jobs)
    outcomes = [quoted(asked.log)] if asked.log else []
    if not asked.log and not asked.gate:
        outcomes = [Outcome(steps[0], LEFT_OUT, ["not run here"])]
    os.mkdir(folder)
    if asked.gate:
        outcomes = Plays(folder, "").outcomes(steps[:1], 1)
        built = os.path.join(TOP, BUILT)
        os.environ |= {"EGASIM_PROGRAM": built} if os.path.isfile(built) else {}
    version, plays = version_lines(), Plays(folder, program())
    without = [step for step in steps[1:] if step.name.split("-")[0] in asked.without]
    outcomes += [Outcome(step, LEFT_OUT, ["the call left it out"]) for step in without]
    # Cases and examples, whose commands may take so long and no longer, run alone.
    rest = [step for step in steps[1:] if step not in without]
    outcomes += plays.outcomes([step for step in rest if not step.words[0].startswith("bench/")], 1)
    outcomes += plays.outcomes([step for step in rest if step.words[0].startswith("bench/")], asked.jobs)
    commit += "" if checkout() == commit else ", which was changed meanwhile"
    with open(os.path.join(folder, "report.md"), "w", encoding="utf-8") as file:
        file.writelines(f"{line}\n" for line in report(version, commit, begun, asked.numbers, outcomes))
    return outcomes

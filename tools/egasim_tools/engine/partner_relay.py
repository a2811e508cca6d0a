"""What egasim partner puts between the unit and a partner where there are options: noise, and a recording.

    partner_relay.py TOOL try|play NOISE RECORDING PARTNER WORDS ..

NOISE and RECORDING are the words behind these options, or empty; WORDS are those of `egasim couple`. With `try` the options
alone are checked."""

import os
import sys

sys.dont_write_bytecode = True
sys.argv[0] = sys.argv.pop(1)  # the tool, in whose name is told what goes wrong
sys.path.insert(0, os.path.dirname(os.path.dirname(os.path.dirname(os.path.realpath(__file__)))))
import egasim_tools  # noqa: E402, F401, before all others
import collections  # noqa: E402
import contextlib  # noqa: E402
import csv  # noqa: E402
import io  # noqa: E402
import shlex  # noqa: E402
import subprocess  # noqa: E402
import threading  # noqa: E402
from egasim_tools.base.files import refuse_input, write  # noqa: E402
from egasim_tools.base.program import printed_by  # noqa: E402
from egasim_tools.base.records import limits_in  # noqa: E402
from egasim_tools.base.tool import TOOL, as_noted, fail, guarded  # noqa: E402
from egasim_tools.calibration.parameters import calibration_of  # noqa: E402
from egasim_tools.engine.noise import Noise, numbers_in  # noqa: E402
from egasim_tools.evidence.kept_calls import names_of  # noqa: E402
from egasim_tools.measurement.recordings import Recording, pieces_of  # noqa: E402
from egasim_tools.study.campaigns import run_of  # noqa: E402


class Relay:
    """Passes lines on, both ways. What is told to the partner is a row of the record for each answer that was taken."""

    def __init__(self, noise, recording, words):
        calibration, campaign, run = words[-3] if words[0] == "--cal" else None, *words[-2:]
        self.noise = Noise(noise, calibration_of(calibration)["torque"]["kt"]) if noise else None
        self.recording = Recording(recording, *recorded_of(calibration, campaign, run)) if recording else None
        self.answers, self.ticks, self.columns = collections.deque(), 0, None

    def run(self, partner):
        """Plays the run; the partner's status."""
        with subprocess.Popen(["sh", "-c", partner], stdin=subprocess.PIPE, stdout=subprocess.PIPE, bufsize=0) as child:
            telling = threading.Thread(target=self.tell, args=(child.stdin,), daemon=True)
            telling.start()
            self.answer(io.BufferedReader(child.stdout))
            telling.join()
            status = child.wait()
        return status if status >= 0 else 128 - status

    def answer(self, answered):
        """Passes the partner's answers on, with noise, until it ends, or the unit."""
        try:
            for line in answered:
                line = self.noise.added(line.decode("latin-1")).encode("latin-1") if self.noise else line
                self.answers.append(line)
                sys.stdout.buffer.write(line)
                sys.stdout.buffer.flush()
        except BrokenPipeError:
            answered.close()
        os.dup2(os.open(os.devnull, os.O_WRONLY), sys.stdout.fileno())  # which ends the unit's input

    def tell(self, to):
        """Passes on what the unit tells, to its end, also where the partner doesn't read it."""
        for line in sys.stdin.buffer:
            self.note(line.decode())
            with contextlib.suppress(BrokenPipeError):
                to.write(line)
        to.close()

    def note(self, line):
        """Takes a line that the unit tells."""
        fields = next(csv.reader([line]))
        self.columns = self.columns or fields
        if not fields[0].isdigit():
            return
        answer = numbers_in(self.answers.popleft().decode("latin-1"))
        if self.recording:
            self.recording.add(self.ticks, answer, dict(zip(self.columns, fields)))
        self.ticks += 1

    def end(self):
        """Writes the recording, and tells what there is to tell."""
        if self.recording:
            for name, text in self.recording.files():
                write(name, text.encode())
        notes = [*([self.noise.note()] if self.noise else []), *(self.recording.notes(self.ticks) if self.recording else [])]
        for note in notes:
            print(as_noted(f"{TOOL}: {note}"), file=sys.stderr)


def recorded_of(calibration, campaign, run):
    """A run's fault, or None; and the tick of a test at which it is passed or has failed."""
    faults = run_of(campaign, run).get("faults", [])
    limits = limits_in(printed_by("limits", *(["--cal", calibration] if calibration else [])))
    return faults[0] if faults else None, int(limits["test"])


def read_by(partner, words):
    """The files that a call reads: the words of the partner's command that are files, and what the run is made of."""
    try:
        of_partner = shlex.split(partner)
    except ValueError:  # the shell is to say what is wrong with it
        of_partner = partner.split()
    return [*filter(os.path.isfile, of_partner), *names_of(["record", *words], False)]


def main():
    way, noise, recording, partner, *words = sys.argv[1:]
    if recording and (os.path.isdir(recording) or not os.path.isdir(os.path.dirname(os.path.abspath(recording)))):
        fail(f"{recording} can't be a file")
    if recording and way == "try":
        for name in [recording, *pieces_of(recording)]:
            refuse_input(name, read_by(partner, words))
    relay = Relay(noise, recording, words)
    if way == "play":
        status = relay.run(partner)
        relay.end()
        sys.exit(status)


if __name__ == "__main__":
    guarded(main)

"""Runs of many kinds, played by the program: short and long ones, of one power cycle and of several, with bursts."""

import csv
import io
import os
import subprocess
import sys
import tomllib

TOP = os.path.dirname(os.path.dirname(os.path.dirname(os.path.realpath(__file__))))


def printed(folder, *words, text=""):
    """What a command prints. If it fails, that ends the script."""
    done = subprocess.run(words, cwd=folder, input=text, capture_output=True, text=True, check=False)
    if done.returncode:
        sys.exit(f"{os.path.basename(sys.argv[0])}: {' '.join(words)}: {done.stderr.strip()}")
    return done.stdout


def egasim(folder, command, calibration, *words, text=""):
    """What a command of the program prints, with this on standard input."""
    program = os.environ.get("EGASIM_PROGRAM") or os.path.join(TOP, "release", "egasim")
    return printed(folder, os.path.realpath(program), command, *(["--cal", calibration] if calibration else []), *words,
                   text=text)


def kinds(folder):
    """Files for runs of more kinds: a single tick; long drives, in one power cycle and in several; bursts without an end."""
    os.symlink(os.path.join(TOP, "examples"), os.path.join(folder, "examples"))
    drives = {"tick": ("follow", ["300,1500,0,0"]),
              "steady": ("late", [f"{1000 if tick < 4500 else 0},1500,0,0" for tick in range(9000)]),
              "moves": ("bursts", [f"{tick * 7 % 1001},{800 + tick % 3000},{tick // 100 % 2 * 150},0"
                                   for tick in range(20000)]),
              "resets": ("late", [f"{tick // 60 * 300 % 1001},1500,0,{int(tick % 2500 == 0)}" for tick in range(8000)])}
    with open(os.path.join(folder, "kinds.toml"), "w", encoding="utf-8") as campaign:
        for name, (image, rows) in drives.items():
            with open(os.path.join(folder, f"{name}.csv"), "w", encoding="utf-8") as file:
                file.write("\n".join(["pedal,speed,raise,reset", *rows, ""]))
            campaign.write(f'[[run]]\nname = "{name}"\ntrace = "{name}.csv"\nimage = "examples/level_1/{image}.hex"\n')
        campaign.write('[[run]]\nname = "stuck"\ntrace = "steady.csv"\nimage = "examples/level_1/late.hex"\n')
        campaign.write('faults = [{ class = "path1-closed", onset = 3000 }]\n')


class Run:
    """A run's record, and what else its pictures show."""

    def __init__(self, folder, campaign, run, calibration):
        self.text = egasim(folder, "record", calibration, campaign, run["name"])
        self.rows = list(csv.DictReader(io.StringIO(self.text)))
        with open(os.path.join(folder, calibration or "examples/calibration/reference.toml"), "rb") as file:
            self.threshold = tomllib.load(file)["permit"]["threshold"]
        with open(os.path.join(folder, run["trace"]), encoding="utf-8") as file:
            self.resets = [tick for tick, row in enumerate(csv.DictReader(file)) if row.get("reset") == "1"]
        self.folder, self.calibration = folder, calibration

    def numbers(self, name, first, last):
        return [int(row[name]) for row in self.rows[first:last + 1]]

    def found(self, first, last):
        """The ticks at which a watch begins to find something."""
        for tick in range(first, last + 1):
            before = self.rows[tick - 1]["found"].split("+") if tick else []
            for watch in self.rows[tick]["found"].split("+"):
                if watch != "-" and watch not in before:
                    yield f"{watch} {tick}"

    def confirmed(self):
        """The ticks of confirmed excess: `check` plays each power cycle for itself."""
        begins = sorted({0, *self.resets})
        for begin, end in zip(begins, [*begins[1:], len(self.rows)]):
            rows = [",".join(row[name] for name in ("pedal", "speed", "raise", "torque")) for row in self.rows[begin:end]]
            with open(os.path.join(self.folder, "cycle.csv"), "w", encoding="utf-8") as file:
                file.write("\n".join(["pedal,speed,raise,torque", *rows, ""]))
            told = egasim(self.folder, "check", self.calibration, "cycle.csv").split()
            if told[0] == "torque":
                yield f"confirmed {begin + int(told[1])}"

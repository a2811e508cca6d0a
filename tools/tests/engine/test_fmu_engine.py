"""tools/fmu: the example FMU against the same engine in Python, and FMUs that behave badly."""

import random
import subprocess
import sys
import zipfile

from fmus import EXAMPLES, built_by_compiler, example_fmu, make_fmu
from in_folder import InFolder
from egasim_tools.base.files import TOOLS, text_of, write

STEP = "fmi2Status fmi2DoStep(fmi2Component of, fmi2Real now, fmi2Real step, fmi2Boolean never_back)\n{\n"
TOLD = "next_throttle,next_ignition,next_on,next_held\n"


def engine_in_python():
    """The class Engine of examples/own_engine/turbo.py."""
    held = {}
    exec(text_of(f"{EXAMPLES}/turbo.py").partition("\nengine, told =")[0], held)  # pylint: disable=exec-used
    return held["Engine"]


def answers_in_python(drive, told, resets):
    """What the engine in Python answers, as examples/own_engine/turbo.py and examples/own_engine/partner.py do."""
    engine = engine_in_python()()
    for row, (throttle, ignition, on, held) in zip(drive, told):
        if resets and row[3]:
            engine = engine_in_python()()
        is_on = on and not row[3]
        shown = engine.step(row[1], *(0 if row[3] else min(1000, one) for one in (throttle, ignition)), is_on, held)
        yield ",".join(map(str, [*row, *shown]))


class Engines(InFolder):
    def setUp(self):
        super().setUp()
        self.mapping = text_of(f"{EXAMPLES}/engine_fmu.toml").replace("examples/own_engine/turbo_drive.csv", "drive.csv")
        self.put("engine.toml", self.mapping)
        self.put("drive.csv", "pedal,speed,raise\n" + "0,800,0\n" * 9)

    def answer(self, told=TOLD + "500,1000,1,-\n" * 9):
        """Status, answers and notes of the tool, to these lines."""
        done = subprocess.run([sys.executable, f"{TOOLS}/fmu", "engine.toml"], input=told, capture_output=True, text=True, check=False)
        return done.returncode, done.stdout, done.stderr

    def note(self, status=1):
        """The last note of a run that ends with this status."""
        ended, _, told = self.answer()
        self.assertEqual(ended, status, told)
        return told.splitlines()[-1].removeprefix("fmu: ") if told else ""

    def refused(self, before, after):
        """The note where the file that joins the FMU is otherwise."""
        assert self.mapping.count(before) == 1, before
        self.put("engine.toml", self.mapping.replace(before, after))
        return self.note()


@built_by_compiler
class Answers(Engines):
    def setUp(self):
        super().setUp()
        write("engine.fmu", example_fmu())

    def compare(self, chance, resets):
        ticks = chance.randint(1, 300)
        drive = [[chance.randint(0, 1000), chance.randint(0, 8000), chance.choice([0, 10000]),
                  int(chance.random() < 0.03), chance.randint(0, 1)] for _ in range(ticks)]
        commands = [(chance.choice([0, 1, 999, 1000, 1001, 65535, chance.randint(0, 1000)]),
                     chance.choice([0, 1000, 65535, chance.randint(0, 1000)]), int(chance.random() < 0.9),
                     chance.choice([None] * 9 + [chance.randint(0, 1000)])) for _ in range(ticks)]
        self.put("drive.csv", "pedal,speed,raise,reset,brake\n" + "".join(",".join(map(str, row)) + "\n" for row in drive))
        told = TOLD + "".join(f"{a},{b},{c},{'-' if d is None else d}\n" for a, b, c, d in commands)
        self.put("engine.toml", f"resets = {str(resets).lower()}\n{self.mapping}")
        wanted = "".join(f"{line}\n" for line in answers_in_python(drive, commands, resets))
        self.assertEqual(self.answer(told), (0, wanted, ""))

    def test_the_fmu_answers_as_the_engine_in_python_over_drawn_drives(self):
        for seed in range(16):
            with self.subTest(seed=seed):
                self.compare(random.Random(seed), seed % 2 == 0)

    def test_a_run_ends_with_the_drive_or_with_the_lines(self):
        self.assertEqual(len(self.answer()[1].splitlines()), 9)
        self.assertEqual(self.answer(TOLD), (0, "", ""))
        self.assertEqual(self.answer(TOLD + "0,0,1,-\n"), (0, "0,800,0,0,0,0,40,40,0\n", ""))

    def test_a_start_value_is_set_also_after_a_reset(self):
        self.put("drive.csv", "pedal,speed,raise,reset\n" + "0,800,0,0\n0,800,0,1\n" * 2)
        self.put("engine.toml", self.mapping.replace("boost_time = 0.25", "charge_time = 0.01\nboost_time = 0.25"))
        told = TOLD + "1000,1000,1,-\n" * 4  # the load is the plate at once, and the boost begins anew: 0.0016
        self.assertEqual([line.split(",")[5:] for line in self.answer(told)[1].splitlines()],
                         [["1000", "1000", "1000", "2500"], ["0", "40", "40", "0"],
                          ["1000", "1002", "1002", "2505"], ["0", "40", "40", "0"]])

    def test_without_a_load_it_is_worked_out_of_the_torque(self):
        self.put("engine.toml", "kt = 2400\n" + "".join(line for line in self.mapping.splitlines(True) if '"load"' not in line))
        first = self.answer()[1].splitlines()[0].split(",")
        self.assertEqual(first[5:], ["500", "162", "162", "387"])  # a charge of 155; 387 needs 161.25 by 2400

    def test_a_tick_may_be_a_time(self):
        whole = self.answer()
        for said in ('"10ms"', '"0.01 s"', '"10000us"'):
            self.put("engine.toml", self.mapping.replace("tick = 0.01", f"tick = {said}"))
            self.assertEqual(self.answer(), whole)

    def test_a_factor_of_its_own_is_told_where_no_unit_is_said(self):
        self.put("engine.toml", self.mapping.replace('"torque", unit = "N.m", factor = 10', '"torque", factor = 5'))
        self.assertEqual(self.note(0), "engine.toml: outputs.torque.factor is 5, and from N.m to tenths of Nm it is 10")

    def test_verbose_tells_each_call(self):
        done = subprocess.run([sys.executable, f"{TOOLS}/fmu", "--verbose", "engine.toml"], input=TOLD + "0,0,1,-\n",
                              capture_output=True, text=True, check=True)
        calls = [line.split()[1] for line in done.stderr.splitlines()]
        self.assertEqual([call for call in calls if "Get" not in call and "Set" not in call], [
            "loading", "fmi2Instantiate", "fmi2EnterInitializationMode", "fmi2ExitInitializationMode", "fmi2DoStep",
            "fmi2Terminate", "fmi2FreeInstance"])


@built_by_compiler
class Hostile(Engines):
    """FMUs that behave badly at the second tick, by edits of the example's source."""

    def test_a_status_other_than_ok_ends_the_run(self):
        for number, name in enumerate(("Warning", "Discard", "Error", "Fatal", "Pending"), 1):
            make_fmu("engine.fmu", [(STEP, f"{STEP}    if (now > 0) return fmi2{name};\n")])
            ended, answers, told = self.answer()
            self.assertEqual((ended, len(answers.splitlines()), told),
                             (1, 1, f"fmu: fmi2DoStep ended with the status {name}\n"), number)
        make_fmu("engine.fmu", [(STEP, f"{STEP}    if (now > 0) return 77;\n")])
        self.assertEqual(self.note(), "fmi2DoStep ended with the status 77")

    def test_a_crash_is_told_with_the_call_and_the_tick(self):
        for body, said in (("*(volatile int *)0 = 0;", "crashed: signal 11, Segmentation fault"), ("abort();", "crashed: signal 6, Aborted"),
                           ("exit(0);", "ended the process, with the status 0"), ("exit(3);", "ended the process, with the status 3")):
            make_fmu("engine.fmu", [(STEP, f"{STEP}    if (now > 0) {body}\n")])
            self.assertEqual(self.note(), f"fmi2DoStep at tick 1 {said}")
        make_fmu("engine.fmu", [("struct engine {", "__attribute__((constructor)) static void first(void) { abort(); }\nstruct engine {")])
        self.assertEqual(self.note(), "loading the library at the start crashed: signal 6, Aborted")

    def test_values_that_are_no_numbers_or_out_of_range_end_the_run(self):
        torque = "reals[TORQUE] = engine->on"
        for value, said in (("NAN", "tick 1: torque is nan"), ("-INFINITY", "tick 1: torque is -inf"),
                            ("-0.05", "tick 1: torque is -1, by torque = -0.05; it may be 0 to 65535"),
                            ("6553.55", "")):
            make_fmu("engine.fmu", [(torque, f"reals[TORQUE] = now > 0 ? {value} : engine->on")])
            self.assertEqual(self.note(1 if said else 0), said)
        make_fmu("engine.fmu", [(torque, "reals[TORQUE] = now > 0.055 ? -4 : engine->on")])
        self.put("engine.toml", self.mapping.replace('"N.m",', '"N.m", clip = true,'))
        self.assertEqual(self.note(0), "torque was out of range at 3 ticks, first at tick 6, and counted as in range")

    def test_what_a_library_prints_is_no_answer_and_what_it_logs_is_told(self):
        log = "struct call { void (*log)(void *, const char *, int, const char *, const char *, ...); };\n"
        make_fmu("engine.fmu", [("struct engine {", f"#include <stdio.h>\n{log}struct engine {{"),
                                (STEP, f"{STEP}    puts(\"1,2,3\"), fflush(stdout);\n"),
                                ("(void)functions, (void)visible", "((const struct call *)functions)->log(0, name, 1, \"kind\", \"old %d\", 7), (void)visible")])
        ended, answers, told = self.answer()
        self.assertEqual((ended, len(answers.splitlines())), (0, 9))
        self.assertEqual(told, "fmu: the FMU says: kind old %d\n" + "1,2,3\n" * 9)

    def test_a_missing_function_and_another_guid_are_told(self):
        make_fmu("engine.fmu", [("fmi2Status fmi2Reset(", "fmi2Status fmi2Rest(")])
        self.assertIn("undefined symbol: fmi2Reset", self.note())
        make_fmu("engine.fmu", [("egasim-turbo", "egasim-other")])
        self.assertEqual(self.note(), "fmi2Instantiate gives no instance: is {5d4d6c1e-egasim-turbo} the library's GUID?")
        make_fmu("engine.fmu", [('"2.0"', '"3.0"')])
        self.assertEqual(self.note(), "fmi2GetVersion says b'3.0', and b'2.0' is wanted")
        with zipfile.ZipFile("engine.fmu", "a") as archive:
            archive.writestr("binaries/linux64/other.so", b"")
        make_fmu("other.fmu", described=[('modelIdentifier="engine_fmu"', 'modelIdentifier="other"')])
        self.put("engine.toml", self.mapping.replace("engine.fmu", "other.fmu"))
        self.assertEqual(self.note(), "other.fmu has no library for 64-bit Linux: binaries/linux64/other.so isn't in it")
        with zipfile.ZipFile("other.fmu", "a") as archive:
            archive.writestr("binaries/linux64/other.so", b"no library")
        self.assertRegex(self.note(), "the FMU's library can't be used: .*(file too short|invalid ELF header)")

    def test_what_joins_the_fmu_is_refused_with_its_place(self):
        write("engine.fmu", example_fmu())
        for before, after, said in (
                ('{ name = "plate", unit = "%"', '{ name = "plate", unit = "1"', "outputs.position: plate is in % by the FMU, and not in 1"),
                ('{ name = "plate"', '{ name = "rack"', "outputs.position: the FMU has no variable rack"),
                ('{ name = "plate"', '{ named = "plate"', 'outputs.position: a table with the variable\'s name is wanted: { name = ".." }'),
                ('on = { name = "stages_on" }', "", "the FMU's input stages_on stands neither in [inputs] nor in [start]"),
                ('name = "stages_on"', 'name = "boost_time"', "inputs.on: boost_time is no input of the FMU, but of the kind parameter"),
                ("\non = {", "\noff = {", "no input off"), ("position =", "plate =", "no output plate"),
                ("load =", "load1 =", "the outputs are position, torque, and load, or load1 and load2"),
                ("tick = 0.01", "tick = 0", "tick has to be above 0"), ("tick = 0.01", "tick = nan", "tick: nan is no number to count with"),
                ("tick = 0.01", 'tick = "10"', "tick 10 is no length of a tick, such as 10ms, 2.5ms or 0.02s, of 10 s at the most"),
                ("tick = 0.01", "tick = 0.01\nkt = 2500", "kt stands beside an output load: the load is that of the output, or by kt of the torque"),
                ('load = { name = "load", unit = "%", factor = 10 }', "", "either an output load, or kt, above 0, is needed"),
                ("tick = 0.01", "tick = true", 'tick has to be a number of seconds, or a time such as "10ms"'),
                ("tick = 0.01", "tick = 0.01\nkt = 2.5", "kt has to be a whole number"),
                ("tick = 0.01", "tick = 0.01\nticks = 1", "there is no key ticks; the keys are fmu, drive, tick, resets, kt, inputs, outputs, start"),
                ('"N.m", factor = 10', '"N.m", factor = 1', "outputs.torque.factor is 1, and from N.m to tenths of Nm it is 10"),
                ('"N.m", factor = 10', '"N.m", factor = inf', "outputs.torque.factor: inf is no number to count with"),
                ('"N.m", factor = 10', '"N.m", factor = 0', "outputs.torque.factor is 0: whatever torque is, the same would be told"),
                ('"torque", unit = "N.m"', '"charge_time", unit = "s"', "outputs.torque: charge_time is no output of the FMU, but of the kind parameter"),
                ('"torque", unit = "N.m"', '"ignition", unit = "%"', "outputs.torque: ignition is no output of the FMU, but of the kind input"),
                ("boost_time = 0.25", "boost_time = nan", "start: boost_time is nan, which is no number to begin with"),
                ("boost_time = 0.25", "boost_time = -inf", "start: boost_time is -inf, which is no number to begin with"),
                ("tick = 0.01", "", "tick is missing"),
                ("boost_time = 0.25", 'boost_time = "slow"', "start: boost_time has to be of the kind Real")):
            self.assertEqual(self.refused(before, after).removeprefix("engine.toml: "), said)


class Unbuilt(Engines):
    """What is refused before a library is loaded; no compiler is needed."""

    def test_an_archive_that_is_no_fmu(self):
        self.assertEqual(self.note(), "cannot read engine.fmu: No such file or directory")
        self.put("engine.fmu", "PK")
        self.assertEqual(self.note(), "engine.fmu is no FMU: File is not a zip file")
        with zipfile.ZipFile("engine.fmu", "w") as archive:
            archive.writestr("readme", b"")
        self.assertEqual(self.note(), "engine.fmu is no FMU: it has no modelDescription.xml")

    def test_a_drive_that_is_none(self):
        for content, said in (("", "header: pedal,speed,raise, or pedal,speed,raise,reset, or pedal,speed,raise,reset,brake is wanted"),
                              ("pedal,speed,raise\n", "no records"), ("pedal,speed,raise\n\n1,2,3\n1,2\n", "record 3"),
                              ("pedal,speed,raise\n1,2,3.0\n", "record 2"), ('pedal,speed,raise\n1,2,"\0', None)):
            self.put("drive.csv", content)
            self.assertEqual(self.note(), f"drive.csv: {said}" if said else self.note())

"""tools/partner: which program it starts, and what it leaves behind. A stand-in takes the program's part."""

import os
import shutil
import subprocess

from egasim_tools.base.files import TOOLS
from in_folder import InFolder


class Partner(InFolder):
    """A checkout in top/, and a folder my/ with a link to its tools and another program."""

    def setUp(self):
        super().setUp()
        os.makedirs("top/tools")
        os.mkdir("temporary")
        shutil.copy(f"{TOOLS}/partner", "top/tools/partner")
        self.put("top/egasim", '#!/bin/sh\necho "of the checkout: $*${EGASIM_PROGRAM+ by $EGASIM_PROGRAM}"\n', 0o755)
        self.put("my/egasim", "#!/bin/sh\necho of my folder\n", 0o755)
        os.symlink("../top/tools", "my/tools")
        os.symlink("../top/tools/partner", "my/partner")

    def call(self, tool, **variables):
        variables = {"PATH": os.environ["PATH"], "TMPDIR": "temporary", **variables}
        done = subprocess.run([tool, "cat >/dev/null", "c.toml", "a"], capture_output=True, text=True, check=False, env=variables)
        return done.returncode, done.stdout, done.stderr

    def test_tools_by_a_link_start_the_program_of_their_checkout(self):
        for tool in ("top/tools/partner", "my/tools/partner", "my/partner"):
            self.assertEqual(self.call(tool), (0, "of the checkout: couple c.toml a\n", ""))

    def test_what_is_named_and_is_no_program_is_refused(self):
        for name in ("my/egasim", "gone", "."):
            note = f"partner: {name}, which EGASIM_PROGRAM names, is no program (a script isn't one)\n"
            self.assertEqual(self.call("top/tools/partner", EGASIM_PROGRAM=name), (1, "", note))
        self.assertEqual(self.call("top/tools/partner", EGASIM_PROGRAM=shutil.which("true")),
                         (0, f"of the checkout: couple c.toml a by {shutil.which('true')}\n", ""))
        os.unlink("top/egasim")
        self.assertEqual(self.call("top/tools/partner"), (1, "", "partner: there is no script egasim above the tools\n"))

    def test_options_are_read_as_they_are_declared(self):
        words = f"{TOOLS}/egasim_tools/engine/partner_words.py"
        odd = os.fsdecode(b"it's \xff")
        for said, told in ((["--noise", "1,2", odd, "c.toml", "a"], ["1,2", "", odd, "c.toml", "a"]),
                           (["--recording=r.csv", "p", "--cal", "k.toml", "c.toml", "a"], ["", "r.csv", "p", "--cal", "k.toml", "c.toml", "a"])):
            done = subprocess.run(["sh", "-c", 'said=$(python3 "$@") && eval "$said" && printf "%s\\n" "$noise" "$recording" "$@"', "sh",
                                   words, "partner", *said], stdout=subprocess.PIPE, check=True)
            self.assertEqual(os.fsdecode(done.stdout).split("\n")[:-1], told)

    def test_what_a_killed_call_left_is_removed_by_the_next(self):
        ended = subprocess.Popen("true")
        ended.wait()
        stays = ["egasim-couple.1234.txt", f"egasim-couple.{os.getpid()}.abcdef", f"egasim-couple.{ended.pid}.other"]
        for name in [f"egasim-couple.{ended.pid}.abcdef", *stays]:
            os.mkdir(f"temporary/{name}")
            os.mkfifo(f"temporary/{name}/record")
        self.put(f"temporary/egasim-couple.{ended.pid}.ghijkl")
        self.call("top/tools/partner")
        self.assertEqual(sorted(os.listdir("temporary")), sorted([*stays, f"egasim-couple.{ended.pid}.ghijkl"]))

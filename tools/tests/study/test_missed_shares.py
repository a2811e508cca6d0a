"""How many runs are cut by the share of missed ticks."""

from egasim_tools.base.units import Units
from egasim_tools.study.missed_shares import Share, draws_shares, evenly_of, lines_of, picture_of, proved_of, shares_of
from in_folder import InFolder

LIMITS = {"spacing": "71", "missed": "38"}
NONE = {"spacing": "none", "missed": "none"}
TABLE = """run,share,cut,off_at,stretch
a,20,answers,40,0
b,5,,,4
c,,torque,9,99
d,20,,40,3
e,20,,,5
"""


class Shares(InFolder):
    def test_runs_count_by_their_share(self):
        self.put("study.csv", TABLE)
        shares = shares_of("study.csv")
        self.assertEqual(list(shares.items()), [(5, Share(1, 0, 4)), (20, Share(3, 2, 5))])
        self.assertEqual([line.split() for line in lines_of(shares, LIMITS, Units())][:3],
                         [["of", "1000", "runs", "cut", "per", "cent", "stretch"], ["5", "1", "0", "0.0", "4"], ["20", "3", "2", "66.7", "5"]])

    def test_plan_has_shares_or_not(self):
        for fault, has in (('class = "lapse"\nshare = 5', True), ('class = "lapse"\nonset = 5', False)):
            self.put("plan.toml", f"[[fault]]\nclass = \"none\"\n[[fault]]\n{fault}\n")
            self.assertEqual(draws_shares("plan.toml"), has)

    def test_what_is_proved_stands_beside_it(self):
        self.assertEqual((f"{evenly_of(LIMITS):.1f}", evenly_of(NONE)), ("14.1", None))
        for limits, words in ((LIMITS, ("71 (710 ms) or more apart", "no excess lasts more than 38 ticks (380 ms)")),
                              (NONE, ("(spacing none)", "(missed none)"))):
            for told, word in zip(proved_of(limits, Units(10**7)), words, strict=True):
                self.assertIn(word, told)

    def test_picture(self):
        shares = {5: Share(4, 1, 0), 20: Share(4, 4, 7)}
        told = "".join(picture_of(shares, LIMITS, Units()))
        for words in ("spacing 71, evenly<", "longest excess of these runs: 7; proved (missed): 38<",
                      "5 of 1000: 1 of 4 cut; 20 of 1000: 4 of 4 cut; proved: missed ticks",
                      '<rect x="589.8" y="21.0" width="6.0"'):  # all are cut: at the top, a twentieth from the right
            self.assertIn(words, told)
        self.assertNotIn(", evenly<", "".join(picture_of(shares, NONE, Units(10**7))))

"""All tools, as they declare themselves."""

from egasim_tools.calibration.calibration_tool import CALIBRATION
from egasim_tools.calibration.find_tool import FIND
from egasim_tools.calibration.questions_tool import QUESTIONS
from egasim_tools.engine.fmu_tool import FMU
from egasim_tools.engine.image_tool import IMAGE
from egasim_tools.engine.partner_words import PARTNER
from egasim_tools.evidence.judge_tool import JUDGE
from egasim_tools.evidence.keep_tool import KEEP
from egasim_tools.measurement.measured_tool import MEASURED
from egasim_tools.report.draw_tool import DRAW
from egasim_tools.report.plot_tool import PLOT
from egasim_tools.report.report_tool import REPORT
from egasim_tools.study.study_tool import STUDY

TOOLS = (CALIBRATION, DRAW, FIND, FMU, IMAGE, JUDGE, KEEP, MEASURED, PARTNER, PLOT, QUESTIONS, REPORT, STUDY)

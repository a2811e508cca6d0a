"""`egasim keep`: a call of the program, with all that it was made from."""

import os

from egasim_tools.base.command_line import NAME, Form, Tool, Word
from egasim_tools.base.files import TOP
from egasim_tools.base.program import program
from egasim_tools.base.tool import refuse_word
from egasim_tools.evidence.kept_calls import PROGRAM, again, keep

INSTALLED = f"/lib/{PROGRAM}/{PROGRAM}"  # the program below the prefix of an installation, whose launcher is in bin/


def is_called(word):
    """Whether a word is the program's name, or a path to it. A path to another program, which wouldn't be run, is refused."""
    if word == PROGRAM or os.path.basename(word) != PROGRAM:
        return word == PROGRAM
    ways = [program(), os.path.join(TOP, PROGRAM)]
    if ways[0].endswith(INSTALLED):
        ways.append(f"{ways[0].removesuffix(INSTALLED)}/bin/{PROGRAM}")
    if not any(os.path.exists(path) and os.path.exists(word) and os.path.samefile(path, word) for path in ways):
        refuse_word(f"{word} isn't the program that would be run, {ways[0]}")
    return True


def kept(values):
    words = values.rest
    if values.again and not values.folder and not words:
        again(values.again)
    elif values.folder and not values.again and len(words) > 1 and is_called(words[0]):
        keep(values.folder, words[1:])
    else:
        refuse_word("FOLDER -- egasim COMMAND .. is wanted, or --again FOLDER")


KEEP = Tool(
    "keep", "keeps what a command of the program prints, with all that it was made from, so that it can be made again and compared",
    (Form("makes FOLDER, or with --again runs each command again that stands in such a folder, and tells each difference", kept,
          (Word("FOLDER", "what is made, and mustn't be there", NAME),
           Word("--again", "a folder that keep made, or report, judge or study join by --keep; called in the same folder as then",
                NAME, "FOLDER")), rest="[-- egasim COMMAND ..]"),),
    "The status is 0 also where the command is refused, since that is kept too; 1 where --again tells a difference; and 2 for whatever "
    "is refused.", refused=2)

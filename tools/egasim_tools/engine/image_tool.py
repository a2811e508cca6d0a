"""`egasim image`: an image of level 1 that follows the pedal."""

import re
from decimal import Decimal

from egasim_tools.base.command_line import VERBOSE, Form, Kind, Tool, Word, refuse, whole
from egasim_tools.base.program import printed_of
from egasim_tools.base.ranges import FULL

SLICES = 9  # waits of a tick
GAIN = re.compile(r"[0-2](?:\.\d{1,3})?")


def load(register, number):
    """Instructions that put a number into a register: ldi takes 9 bits, ldx shifts by 7 and takes 7 more."""
    return [f"ldi {register},{number}"] if number < 512 else [f"ldi {register},{number >> 7}", f"ldx {register},{number & 127}"]


def source(gain, offset, rate):
    """The lines of the source. It works by the gain in 1024ths, rounded up, and then corrects what that makes too great."""
    more = f"{'less' if offset < 0 else 'plus'} {abs(offset)}"
    return [
        f"; Follows the pedal: the throttle moves toward pedal*{gain}/1000, rounded down, {more},",
        f"; from 0 to 1000, by {rate} a tick at most. The ignition is 1000.", "",
        "; r1: the first input port; the output ports stand 16 behind it. r2: 1000. r3: the gain in 1024ths. r5: the throttle.",
        *load("r1", 2048), *load("r2", FULL), *load("r3", -(-gain * 1024 // FULL)), "",
        "loop:", "ld r7,r1,0", "jlt r7,r2,gain", "mov r7,r2", "",
        "; r4: the pedal by the gain. Its 32nd part and the rest are taken apart, so that no product has more than 16 bits.",
        "gain:", "ldi r6,31", "and r6,r7,r6", "mul r6,r6,r3", "shr r6,r6,5", "shr r4,r7,5", "mul r4,r4,r3", "add r4,r4,r6",
        "shr r4,r4,5", "; r7: what thousandths leave. Where r4 is one too great that is below 0, and so no number below 1000.",
        *load("r6", gain), "mul r7,r7,r6", "mul r6,r4,r2", "sub r7,r7,r6", "jlt r7,r2,offset", "ldi r6,1", "sub r4,r4,r6", "",
        "offset:", *load("r6", abs(offset)),
        *(["add r4,r4,r6"] if offset >= 0 else ["jlt r4,r6,none", "sub r4,r4,r6", "jz r0,top", "none:", "mov r4,r0"]), "",
        "top:", "jlt r4,r2,move", "mov r4,r2", "",
        "; r7: how far it is. The throttle gets there, or as far as the rate allows. r0 is 0 from the start on.",
        "move:", *load("r6", rate), "jlt r4,r5,down", "sub r7,r4,r5", "jlt r7,r6,there", "add r5,r5,r6", "jz r0,put",
        "down:", "sub r7,r5,r4", "jlt r7,r6,there", "sub r5,r5,r6", "jz r0,put", "there:", "mov r5,r4", "",
        "; Once a tick, which has nine slices.",
        "put:", "st r5,r1,16", "st r2,r1,17", *["wait"] * SLICES, "jz r0,loop"]


def gain_of(said):
    """A gain in thousandths."""
    gain = int(Decimal(said) * 1000) if said.isascii() and GAIN.fullmatch(said) else FULL * 3
    return gain if gain <= 2 * FULL else refuse(f"{said or 'an empty word'} is no number from 0 to 2 with three decimals at most")


def printed(values):
    text = "".join(f"{line}\n" for line in source(values.gain, values.offset, values.rate))
    image = printed_of("asm", text=text, name="its source")
    print(text if values.source else image, end="")


IMAGE = Tool(
    "image", "makes an image of level 1 that follows the pedal by a gain, an offset and a rate",
    (Form("prints the image, as asm makes it", printed,
          (Word("--gain", "the gain; 1 without it", Kind(gain_of, "0 to 2, with three decimals at most"), "NUMBER", default=FULL),
           Word("--offset", "the offset; 0 without it", whole(-FULL, FULL, "per mille"), "NUMBER", default=0),
           Word("--rate", "how far the throttle moves at most; 1000 without it", whole(1, FULL, "per mille a tick"), "NUMBER",
                default=FULL),
           Word("--source", "prints its source, with these numbers in a comment"), VERBOSE)),),
    "The throttle begins at 0, and moves toward gain * pedal + offset, but at most to 0 and to 1000. The ignition is 1000.")

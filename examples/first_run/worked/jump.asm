; Jumps to itself for ever, and never waits. r0 is 0 from the start on.
here:
jz r0,here

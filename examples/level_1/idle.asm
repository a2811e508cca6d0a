; Waits for ever, and asks for nothing: both outputs stay 0.
; r0 is 0 from the start on, so that the jump is always done.
loop:
wait
jz r0,loop

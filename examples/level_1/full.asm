; Asks for full throttle and full ignition, whatever the pedal says: sets both outputs to 1000, then waits for ever.

; r1: 16 * 128 + 16 is 2064, the first output port.
ldi r1,16
ldx r1,16
; r2: 7 * 128 + 104 is 1000.
ldi r2,7
ldx r2,104

; The throttle, and behind it the ignition.
st r2,r1,0
st r2,r1,1

; r0 is 0 from the start on, so that the jump is always done.
loop:
wait
jz r0,loop

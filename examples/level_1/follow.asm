; Follows the pedal: in each slice the throttle is half of what the first track of the pedal reads, the ignition 1000.

; r1: 16 * 128 is 2048, the first input port. The output ports stand 16 behind it.
ldi r1,16
ldx r1,0
; r2: 7 * 128 + 104 is 1000.
ldi r2,7
ldx r2,104

; r0 is 0 from the start on, so that the jump is always done.
loop:
ld r3,r1,0
shr r3,r3,1
st r3,r1,16
st r2,r1,17
wait
jz r0,loop

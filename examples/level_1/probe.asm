; Reads the actual torque of level 2 in one slice and again in the next, and writes the difference as throttle: it shows
; whether slices really run between the modules of level 2.

; r1: 16 * 128 + 32 is 2080, the first of level 2's results. The actual torque stands 2 behind it.
ldi r1,16
ldx r1,32
; r5: 16 * 128 + 16 is 2064, the first output port.
ldi r5,16
ldx r5,16

; r0 is 0 from the start on, so that the jump is always done.
loop:
ld r2,r1,2
wait
ld r3,r1,2
sub r4,r3,r2
st r4,r5,0
wait
jz r0,loop

; Counts the throttle up to 500, by one in each slice, and then waits.
; r1 is 2064, the first output port: 16 * 128 + 16.
ldi r1,16
ldx r1,16
; r2 is what is counted, r3 where it ends.
ldi r3,500
ldi r4,1
up:
add r2,r2,r4
st r2,r1,0
wait
jlt r2,r3,up
loop:
wait
jz r0,loop

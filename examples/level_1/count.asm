; Counts the throttle up by one once a tick: a tick has nine slices, and each `wait` waits for the next one.
ldi r1,16
ldx r1,16
ldi r4,1
up:
add r2,r2,r4
st r2,r1,0
wait
wait
wait
wait
wait
wait
wait
wait
wait
jz r0,up

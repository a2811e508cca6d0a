; Waits for 17 ticks, and then asks for full throttle as full.asm does: a tick has nine slices, and it counts 153 down.

; r1: 16 * 128 + 16 is 2064, the first output port.
ldi r1,16
ldx r1,16
; r2: 7 * 128 + 104 is 1000.
ldi r2,7
ldx r2,104

; r3: the slices that are still to wait for. r4: what is taken away.
ldi r3,153
ldi r4,1
count:
jz r3,ask
sub r3,r3,r4
wait
jz r0,count

; The throttle, and behind it the ignition.
ask:
st r2,r1,0
st r2,r1,1

; r0 is 0 from the start on, so that the jumps by it are always done.
loop:
wait
jz r0,loop

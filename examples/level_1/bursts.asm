; Asks for full throttle in bursts: for four ticks, then for four ticks for none. A tick has nine slices, so 36 are
; counted down for each. The ignition stays at 1000.

; r1: 16 * 128 + 16 is 2064, the first output port.
ldi r1,16
ldx r1,16
; r2: 7 * 128 + 104 is 1000.
ldi r2,7
ldx r2,104
st r2,r1,1

; r3: the slices that are still to wait for. r4: what is taken away.
ldi r4,1
burst:
st r2,r1,0
ldi r3,36
hold:
wait
sub r3,r3,r4
jz r3,pause
jz r0,hold
pause:
st r0,r1,0
ldi r3,36
rest:
wait
sub r3,r3,r4
jz r3,burst
jz r0,rest

; Stores to word 2080, the first of level 2's results: level 1 is trapped there, and nothing is stored.

; r1: 16 * 128 + 32 is 2080.
ldi r1,16
ldx r1,32
st r1,r1,0

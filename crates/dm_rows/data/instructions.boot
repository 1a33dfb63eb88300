quantum = 1000
[[machine]]
slots = 1
blocks = 2
[[image]]
name = "a"
blocks = 1
text = '''
li r2 0x1234       ; li, lih
lih r2 0xffff
mov r1 r2
sys 2
li r3 40
add r1 r2 r3       ; arithmetic modulo 2^32
sys 2
li r1 0
sub r1 r1 r3
sys 2
mul r1 r2 r2
sys 2
li r4 0x0ff0
and r1 r2 r4
sys 2
or r1 r2 r4
sys 2
xor r1 r2 r4
sys 2
shl r1 r3 r3       ; by 40, which is 8
sys 2
shr r1 r2 r3
sys 2
li r5 word
lw r1 r5 4
sys 2
sw r2 r5 0         ; and its bytes
lb r1 r5 0
sys 2
lb r1 r5 3
sys 2
sb r4 r5 2
lw r1 r5 0
sys 2
jmp over
sys 1
over: li r6 3
li r7 1
li r1 0
again: add r1 r1 r6
sub r6 r6 r7
bne r6 r0 again    ; back
sys 2
beq r6 r0 equal
sys 1
equal: bltu r7 r2 below
sys 1
below: beq r7 r2 again
bne r6 r0 again
bltu r2 r7 again
sys 2
sys 1
word: .word 0
.word 0x89abcdef
'''
[[process]]
name = "a"
machine = 0
image = "a"

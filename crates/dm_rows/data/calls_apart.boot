[[machine]]
slots = 1
blocks = 3
[[image]]
name = "a"
blocks = 2
text = '''
li r8 calls
li r9 behind
li r10 4
again: lw r7 r8 0
mov r1 r7
sys 2
add r8 r8 r10
bltu r8 r9 again
sys 1
text: .byte 104 105 33 46
calls: li r1 3 ; the same, instruction by instruction
li r2 0
li r3 0
li r4 0
li r5 0
sys 6
li r1 0
li r2 36
li r3 2
li r4 0
li r5 0
sys 6
mov r1 r9
li r2 37
li r3 97
li r4 4
mov r5 r5
sys 6
li r1 65535
li r2 0
li r3 0
sys 7
mov r1 r4
li r2 38
li r3 16
sys 7
li r1 7
li r2 2
li r3 1
li r4 0
li r5 0
sys 3
mov r1 r1
li r2 31
li r3 12
li r4 36
li r5 4
sys 3
li r1 0
li r2 1
li r3 16
li r4 36
li r5 3
sys 8
li r1 4
sys 4
mov r1 r1
sys 5
mov r1 r15
sys 2
sys 1
behind: .word 3
'''
[[process]]
name = "a"
machine = 0
image = "a"

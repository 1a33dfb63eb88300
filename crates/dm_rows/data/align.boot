[[machine]]
slots = 1
blocks = 3
[[image]]
name = "a"
blocks = 1
text = '''
li r2 words
li r3 behind
li r4 4
again: lw r1 r2 0
sys OUT
add r2 r2 r4
bltu r2 r3 again
sys EXIT
.byte 1
.align 4
words: .word after
.byte 7
after: .align 1
.align 2
.align 2
.align 0x4
.word 9
.byte 1
.align 64
behind:
'''
[[process]]
name = "a"
machine = 0
image = "a"

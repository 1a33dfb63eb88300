[[machine]]
slots = 3
blocks = 4
[[machine]]
slots = 4
blocks = 5
[[machine]]
slots = 0
blocks = 9
[[machine]]
slots = 1
blocks = 1
[[image]]
name = "sender"
blocks = 1
text = '''
sys 6
sys 6
sys 6
sys 1
'''
[[image]]
name = "controller"
blocks = 2
text = '''
; sends each byte of the table over its link
li r10 table
li r11 8
li r9 99
next: lw r1 r10 0
lw r2 r10 4
add r10 r10 r11
li r3 1
beq r1 r9 over
sys 6
jmp next
over: sys 1
stop: .byte 2
resume: .byte 3
kill: .byte 4
any: .byte 0
table: .word 0
.word stop
.word 99
.word 99
'''
[[image]]
name = "waits"
blocks = 1
text = '''
sys 7
'''
[[image]]
name = "large"
blocks = 2
text = '''
li r1 2
sys 7
'''
[[process]]
name = "sender"
machine = 0
image = "sender"
links = [{ to = 'subject' }]
[[process]]
name = "controller"
machine = 0
image = "controller"
links = [{ control = 'subject' }]
[[process]]
name = "subject"
machine = 1
image = "large"
[[process]]
name = "second"
machine = 1
image = "waits"
[[process]]
name = "third"
machine = 1
image = "waits"
[[process]]
name = "fourth"
machine = 1
image = "waits"

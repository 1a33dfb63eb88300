[[machine]]
slots = 3
blocks = 5
[[machine]]
slots = 3
blocks = 6
[[image]]
name = "controller"
blocks = 2
text = '''
; sends each byte of the table over its link
li r10 table
li r11 8
li r9 99
next: lw r1 r10 0
lw r2 r10 4
add r10 r10 r11
li r3 1
beq r1 r9 over
sys 6
jmp next
over: sys 1
stop: .byte 2
resume: .byte 3
kill: .byte 4
any: .byte 0
table: .word 0
.word stop
.word 1
.word stop
.word 2
.word stop
.word 0
.word resume
.word 99
.word 99
'''
[[image]]
name = "reads"
blocks = 2
text = '''
li r5 300
li r4 200
sys 8
'''
[[image]]
name = "writes"
blocks = 2
text = '''
li r2 1
li r5 300
li r4 16
sys 8
'''
[[image]]
name = "reads_ended"
blocks = 1
text = '''
li r5 256
sys 8
'''
[[image]]
name = "waits"
blocks = 2
text = '''
sys 7
'''
[[image]]
name = "ends"
blocks = 1
text = '''
sys 1
'''
[[process]]
name = "ends"
machine = 0
image = "ends"
[[process]]
name = "controller"
machine = 0
image = "controller"
links = [{ control = 'reads' }, { control = 'writes' }, { control = 'reads_ended' }]
[[process]]
name = "reads"
machine = 1
image = "reads"
links = [{ to = 'waits', len = 300, read = true }]
[[process]]
name = "writes"
machine = 1
image = "writes"
links = [{ to = 'waits', len = 300, write = true }]
[[process]]
name = "reads_ended"
machine = 1
image = "reads_ended"
links = [{ to = 'ends', len = 256, read = true }]
[[process]]
name = "waits"
machine = 0
image = "waits"

[[machine]]
slots = 7
blocks = 8
[[machine]]
slots = 4
blocks = 4
[[machine]]
slots = 5
blocks = 5
[[image]]
name = "exits"
blocks = 1
text = '''
sys 1
'''
[[image]]
name = "controller"
blocks = 2
text = '''
; sends each byte of the table over its link
li r10 table
li r11 8
li r9 99
next: lw r1 r10 0
lw r2 r10 4
add r10 r10 r11
li r3 1
beq r1 r9 over
sys 6
jmp next
over: sys 1
stop: .byte 2
resume: .byte 3
kill: .byte 4
any: .byte 0
table: .word 4
.word any
.word 0
.word stop
.word 0
.word resume
.word 4
.word any
.word 4
.word any
.word 4
.word any
.word 3
.word kill
.word 99
.word 99
'''
[[image]]
name = "waits"
blocks = 1
text = '''
sys 7
'''
[[image]]
name = "sends_and_waits"
blocks = 1
text = '''
li r1 1
sys 6
li r1 0
sys 7
'''
[[image]]
name = "reads"
blocks = 1
text = '''
li r5 4
sys 8
sys 1
'''
[[image]]
name = "writes"
blocks = 1
text = '''
li r2 1
li r5 4
sys 8
sys 1
'''
[[process]]
name = "ended"
machine = 0
image = "exits"
[[process]]
name = "controller"
machine = 0
image = "controller"
links = [
{ control = 'subject' }, { control = 'reads' }, { control = 'writes' }, { control = 'reads_ended' }, { to = 'subject' },
]
[[process]]
name = "reader"
machine = 0
image = "reads"
links = [{ to = 'subject', base = 64, len = 8, read = true }]
[[process]]
name = "writer"
machine = 0
image = "writes"
links = [{ to = 'subject', base = 64, len = 8, write = true }]
[[process]]
name = "owner"
machine = 0
image = "waits"
[[process]]
name = "wanders"
machine = 0
image = "waits"
[[process]]
name = "subject"
machine = 1
image = "sends_and_waits"
links = [{ to = 'wanders' }, { to = 'wanders' }]
[[process]]
name = "reads"
machine = 1
image = "reads"
links = [{ to = 'owner', base = 64, len = 4, read = true }]
[[process]]
name = "writes"
machine = 1
image = "writes"
links = [{ to = 'owner', base = 64, len = 4, write = true }]
[[process]]
name = "reads_ended"
machine = 1
image = "reads"
links = [{ to = 'ended', len = 4, read = true }]

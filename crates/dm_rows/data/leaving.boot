[[machine]]
slots = 2
blocks = 4
[[machine]]
slots = 8
blocks = 9
[[machine]]
slots = 8
blocks = 9
[[image]]
name = "controller"
blocks = 2
text = '''
; sends each byte of the table over its link
li r10 table
li r11 8
li r9 99
next: lw r1 r10 0
lw r2 r10 4
add r10 r10 r11
li r3 1
beq r1 r9 over
sys 6
jmp next
over: sys 1
stop: .byte 2
resume: .byte 3
kill: .byte 4
any: .byte 0
table: .word 3
.word any
.word 0
.word stop
.word 1
.word stop
.word 2
.word stop
.word 3
.word any
.word 3
.word any
.word 99
.word 99
'''
[[image]]
name = "waits"
blocks = 1
text = '''
li r1 4
li r2 16
li r3 8
sys 7
'''
[[image]]
name = "ready"
blocks = 1
text = '''
li r1 1
again: jmp again
'''
[[image]]
name = "reads"
blocks = 1
text = '''
li r4 128
li r5 4
sys 8
'''
[[image]]
name = "writes"
blocks = 1
text = '''
li r2 1
li r5 4
sys 8
'''
[[process]]
name = "controller"
machine = 0
image = "controller"
links = [{ control = 'ready_stopped' }, { control = 'waits_stopped' }, { control = 'reads_stopped' }, { to = 'ready' }]
[[process]]
name = "owner"
machine = 0
image = "waits"
[[process]]
name = "ready"
machine = 1
image = "ready"
[[process]]
name = "waits"
machine = 1
image = "waits"
[[process]]
name = "reads"
machine = 1
image = "reads"
links = [{ to = 'owner', base = 64, len = 4, read = true }]
[[process]]
name = "writes"
machine = 1
image = "writes"
links = [{ to = 'owner', base = 64, len = 4, write = true }]
[[process]]
name = "ready_stopped"
machine = 1
image = "ready"
[[process]]
name = "waits_stopped"
machine = 1
image = "waits"
[[process]]
name = "reads_stopped"
machine = 1
image = "reads"
links = [{ to = 'owner', base = 64, len = 4, read = true }]

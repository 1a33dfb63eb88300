[[machine]]
slots = 7
blocks = 8
[[machine]]
slots = 1
blocks = 1
[[image]]
name = "controller"
blocks = 2
text = '''
; sends each byte of the table over its link
li r10 table
li r11 8
li r9 99
next: lw r1 r10 0
lw r2 r10 4
add r10 r10 r11
li r3 1
beq r1 r9 over
sys 6
jmp next
over: sys 1
stop: .byte 2
resume: .byte 3
kill: .byte 4
any: .byte 0
; links 0 to 3 control: a ready process, one that waits, one that moves data, a stopped one; 4 to 7 lead to them
table: .word 3
.word stop
.word 3
.word stop
.word 1
.word resume
.word 1
.word stop
.word 1
.word resume
.word 2
.word stop
.word 2
.word resume
.word 2
.word resume
.word 0
.word resume
.word 0
.word stop
.word 0
.word resume
.word 4
.word any
.word 5
.word any
.word 6
.word any
.word 7
.word any
.word 5
.word any
.word 0
.word kill
.word 1
.word kill
.word 2
.word kill
.word 3
.word kill
.word 99
.word 99
'''
[[image]]
name = "ready"
blocks = 1
text = '''
again: jmp again
'''
[[image]]
name = "waits"
blocks = 1
text = '''
li r1 2
sys 7
'''
[[image]]
name = "moves"
blocks = 1
text = '''
li r5 4
sys 8
'''
[[image]]
name = "mover"
blocks = 1
text = '''
; reads and writes the memory of each
li r5 4
li r4 200
li r6 4
next: sys 8
li r7 1
add r1 r1 r7
bne r1 r6 next
li r1 0
add r2 r2 r7
li r8 2
bne r2 r8 next
sys 1
'''
[[process]]
name = "controller"
machine = 0
image = "controller"
links = [
{ control = 'ready' }, { control = 'waits' }, { control = 'moves' }, { control = 'stopped' },
{ to = 'ready' }, { to = 'waits' }, { to = 'moves' }, { to = 'stopped' },
]
[[process]]
name = "ready"
machine = 0
image = "ready"
[[process]]
name = "waits"
machine = 0
image = "waits"
[[process]]
name = "moves"
machine = 0
image = "moves"
links = [{ to = 'far', len = 4, read = true }]
[[process]]
name = "stopped"
machine = 0
image = "waits"
[[process]]
name = "mover"
machine = 0
image = "mover"
links = [
{ to = 'ready', base = 8, len = 8, read = true, write = true },
{ to = 'waits', base = 8, len = 8, read = true, write = true },
{ to = 'moves', base = 8, len = 8, read = true, write = true },
{ to = 'stopped', base = 8, len = 8, read = true, write = true },
]
[[process]]
name = "far"
machine = 1
image = "waits"

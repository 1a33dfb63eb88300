[[machine]]
slots = 8
blocks = 9
[[machine]]
slots = 2
blocks = 2
[[image]]
name = "asker"
blocks = 2
text = '''
; sends what the table says, over which link, with so many links for the answer, and takes what is answered
li r10 table
li r11 16
li r9 99
li r5 answers
next: lw r1 r10 0
lw r2 r10 4
lw r3 r10 8
lw r4 r10 12
add r10 r10 r11
beq r1 r9 over
sys 6
jmp next
over: li r1 8
li r2 heard
li r3 1
sys 7
lb r1 r2 0
sys 2
jmp over
heard: .byte 9 0 0
answers: .byte 6 7
stop: .byte 2
kill: .byte 4
here: .byte 5 0
there: .byte 5 1
beyond: .byte 5 2
long: .byte 5 0 0
; links 0 to 4 control: a ready process, one that waits, one that moves data, a stopped one, one that has ended; 5 is the manager, 6
; and 7 are for answers
table: .word 3
.word stop
.word 1
.word 0
.word 0
.word here
.word 2
.word 1
.word 1
.word here
.word 2
.word 1
.word 2
.word here
.word 2
.word 1
.word 3
.word here
.word 2
.word 1
.word 0
.word here
.word 2
.word 0
.word 1
.word here
.word 2
.word 2
.word 0
.word here
.word 1
.word 1
.word 0
.word long
.word 3
.word 1
.word 0
.word beyond
.word 2
.word 1
.word 0
.word beyond
.word 2
.word 0
.word 5
.word here
.word 2
.word 1
.word 4
.word kill
.word 1
.word 0
.word 4
.word there
.word 2
.word 1
.word 4
.word there
.word 2
.word 0
.word 99
.word 0
.word 0
.word 0
'''
[[image]]
name = "ready"
blocks = 1
text = '''
again: jmp again
'''
[[image]]
name = "waits"
blocks = 1
text = '''
li r1 2
sys 7
'''
[[image]]
name = "moves"
blocks = 1
text = '''
li r5 4
sys 8
'''
[[process]]
name = "asker"
machine = 0
image = "asker"
links = [
{ control = 'ready' }, { control = 'waits' }, { control = 'moves' }, { control = 'stopped' }, { control = 'ended' }, { to = 'manager' },
{ to = 'asker', channel = 3 }, { to = 'asker', channel = 4 },
]
[[process]]
name = "ready"
machine = 0
image = "ready"
[[process]]
name = "waits"
machine = 0
image = "waits"
[[process]]
name = "moves"
machine = 0
image = "moves"
links = [{ to = 'far', len = 4, read = true }]
[[process]]
name = "stopped"
machine = 0
image = "waits"
[[process]]
name = "ended"
machine = 0
image = "waits"
[[process]]
name = "far"
machine = 1
image = "waits"

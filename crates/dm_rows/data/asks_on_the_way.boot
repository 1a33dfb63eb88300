[[machine]]
slots = 1
blocks = 2
[[machine]]
slots = 1
blocks = 1
[[machine]]
slots = 1
blocks = 1
[[image]]
name = "asker"
blocks = 2
text = '''
; sends what the table says, with a link for the answer, and takes what is answered
li r10 table
li r11 4
li r9 99
li r3 2
li r4 1
li r5 answers
next: lw r2 r10 0
add r10 r10 r11
beq r2 r9 over
li r1 0
sys 6
jmp next
over: li r1 8
li r2 heard
li r3 1
sys 7
lb r1 r2 0
sys 2
jmp over
heard: .byte 9
answers: .byte 1
to_0: .byte 5 0
to_1: .byte 5 1
to_2: .byte 5 2
; link 0 controls the subject, and link 1 is for answers
table: .word to_2
.word to_0
.word to_2
.word to_1
.word to_2
.word to_0
.word 99
'''
[[image]]
name = "ready"
blocks = 1
text = '''
again: jmp again
'''
[[process]]
name = "asker"
machine = 0
image = "asker"
links = [{ control = 'subject' }, { to = 'asker', channel = 3 }]
[[process]]
name = "subject"
machine = 1
image = "ready"

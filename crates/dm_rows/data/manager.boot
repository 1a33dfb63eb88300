quantum = 1000
[[machine]]
slots = 6
blocks = 8
[[image]]
name = "a"
blocks = 3
text = '''
; sends each request of the table, and puts out the first byte of its answer
li r10 requests
li r11 20
next: lw r1 r10 0
lw r2 r10 4
lw r3 r10 8
lw r4 r10 12
lw r5 r10 16
add r10 r10 r11
sys 6
li r1 1
li r2 answer
li r3 1
sys 7
li r2 answer
lb r1 r2 0
sys 2
jmp next
answer: .zero 4
; the link to send over, the body, its length, how many links, their slots
requests:
.word 0 ; a child without links
.word child
.word 4
.word 1
.word plain
.word 0 ; with one
.word child
.word 4
.word 2
.word links
.word 0 ; with three, the answer over a reply link
.word child
.word 4
.word 4
.word reply_first
.word 0 ; one that is too large
.word large
.word 4
.word 1
.word plain
.word 0 ; with two, in the last slot
.word child
.word 4
.word 3
.word links
.word 0 ; no slot
.word child
.word 4
.word 1
.word plain
.word 0 ; an empty body
.word child
.word 0
.word 1
.word plain
.word 0 ; three bytes of four
.word child
.word 3
.word 1
.word plain
.word 0 ; an unknown operation
.word unknown
.word 4
.word 1
.word plain
.word 0 ; another length
.word unknown
.word 5
.word 1
.word plain
.word 0 ; no such machine
.word elsewhere
.word 4
.word 1
.word plain
.word 0 ; no such image
.word nothing
.word 4
.word 1
.word plain
.word 1 ; control of another length
.word unknown
.word 2
.word 1
.word plain
.word 1 ; control, an unknown operation
.word unknown
.word 1
.word 1
.word plain
.word 1 ; stop, which isn't answered; links that come along are dropped
.word stop
.word 1
.word 2
.word links

child: .byte 1 0 0 1
large: .byte 1 0 0 2
unknown: .byte 7 0 0 1 0
elsewhere: .byte 1 1 0 1
nothing: .byte 1 0 0 3
stop: .byte 2
plain: .byte 2
links: .byte 2 1 0 2
reply_first: .byte 3 2 2 0
'''
[[image]]
name = "child"
blocks = 1
text = '''
sys 7
'''
[[image]]
name = "large"
blocks = 5
text = '''
sys 1
'''
[[process]]
name = "a"
machine = 0
image = "a"
links = [{ to = 'manager' }, { control = 'b' }, { to = 'a' }, { to = 'a', reply = true }]
[[process]]
name = "b"
machine = 0
image = "child"

quantum = 1000
[[machine]]
slots = 2
blocks = 4
[[image]]
name = "a"
blocks = 3
text = '''
; sends each request of the table, and puts out the first byte of its answer
li r10 requests
li r11 20
next: lw r1 r10 0
lw r2 r10 4
lw r3 r10 8
lw r4 r10 12
lw r5 r10 16
add r10 r10 r11
sys 6
li r1 1
li r2 answer
li r3 1
sys 7
li r2 answer
lb r1 r2 0
sys 2
jmp next
answer: .zero 4
; the link to send over, the body, its length, how many links, their slots
requests:
.word 0 ; look up: unknown
.word find
.word 2
.word 1
.word plain
.word 0 ; register, the answer over a reply link
.word register
.word 2
.word 2
.word over_reply
.word 0 ; again: taken
.word register
.word 2
.word 2
.word keep
.word 0 ; a reply link to keep
.word other
.word 2
.word 2
.word keep_reply
.word 0 ; an empty body
.word find
.word 0
.word 1
.word plain
.word 0 ; an unknown operation
.word unknown
.word 2
.word 1
.word plain
.word 0 ; a name of no bytes
.word find
.word 1
.word 1
.word plain
.word 0 ; a name of 17 bytes
.word long
.word 18
.word 1
.word plain
.word 0 ; register with one link
.word other
.word 2
.word 1
.word plain
.word 0 ; register with three
.word other
.word 2
.word 3
.word keep
.word 0 ; look up with two
.word find
.word 2
.word 2
.word keep
.word 0 ; a name of 16 bytes
.word long
.word 17
.word 2
.word longest
.word 0 ; look up: found
.word find
.word 2
.word 1
.word plain
.word 0 ; no link, no answer
.word find
.word 2
.word 0
.word plain

find: .byte 2 120
register: .byte 1 120
other: .byte 1 121
unknown: .byte 3 120
long: .byte 1 97 98 99 100 101 102 103 104 105 106 107 108 109 110 111 112 113
plain: .byte 1
over_reply: .byte 2 4
keep: .byte 1 4 4
keep_reply: .byte 1 3
longest: .byte 1 4
'''
[[image]]
name = "b"
blocks = 1
text = '''
sys 7
'''
[[process]]
name = "a"
machine = 0
image = "a"
links = [{ to = 'switchboard' }, { to = 'a' }, { to = 'a', reply = true }, { to = 'a', reply = true }, { to = 'b', code = 9, channel = 5, base = 8, len = 16, read = true }]
[[process]]
name = "b"
machine = 0
image = "b"

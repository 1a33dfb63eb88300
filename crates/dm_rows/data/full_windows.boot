numbers = 1048576
[[machine]]
slots = 1
blocks = 1
[[machine]]
slots = 1
blocks = 1
[[machine]]
slots = 1
blocks = 1
[[machine]]
slots = 1
blocks = 1
[[machine]]
slots = 1
blocks = 1
[[machine]]
slots = 1
blocks = 1
[[machine]]
slots = 1
blocks = 1
[[machine]]
slots = 1
blocks = 1
[[machine]]
slots = 1
blocks = 1
[[machine]]
slots = 1
blocks = 1
[[machine]]
slots = 1
blocks = 1
[[machine]]
slots = 1
blocks = 1
[[machine]]
slots = 1
blocks = 1
[[machine]]
slots = 1
blocks = 1
[[machine]]
slots = 1
blocks = 1
[[machine]]
slots = 1
blocks = 1
[[image]]
name = "sender"
blocks = 1
text = '''
li r6 0
li r7 1
li r8 15
again:
mov r1 r6
li r2 word
li r3 1
li r4 0
sys SEND
add r6 r6 r7
bne r6 r8 again
li r6 0
lb r9 r2 0
add r9 r9 r7
sb r9 r2 0
jmp again
word: .byte 1
'''
[[image]]
name = "still"
blocks = 1
text = "sys RECEIVE"
[[process]]
name = "sender"
machine = 0
image = "sender"
links = [
  { to = "p1" },
  { to = "p2" },
  { to = "p3" },
  { to = "p4" },
  { to = "p5" },
  { to = "p6" },
  { to = "p7" },
  { to = "p8" },
  { to = "p9" },
  { to = "p10" },
  { to = "p11" },
  { to = "p12" },
  { to = "p13" },
  { to = "p14" },
  { to = "p15" },
]
[[process]]
name = "p1"
machine = 1
image = "still"
[[process]]
name = "p2"
machine = 2
image = "still"
[[process]]
name = "p3"
machine = 3
image = "still"
[[process]]
name = "p4"
machine = 4
image = "still"
[[process]]
name = "p5"
machine = 5
image = "still"
[[process]]
name = "p6"
machine = 6
image = "still"
[[process]]
name = "p7"
machine = 7
image = "still"
[[process]]
name = "p8"
machine = 8
image = "still"
[[process]]
name = "p9"
machine = 9
image = "still"
[[process]]
name = "p10"
machine = 10
image = "still"
[[process]]
name = "p11"
machine = 11
image = "still"
[[process]]
name = "p12"
machine = 12
image = "still"
[[process]]
name = "p13"
machine = 13
image = "still"
[[process]]
name = "p14"
machine = 14
image = "still"
[[process]]
name = "p15"
machine = 15
image = "still"

[[machine]]
slots = 4
blocks = 8
[[machine]]
slots = 0
blocks = 4
[[machine]]
slots = 4
blocks = 1
[[image]]
name = "edges"
blocks = 4
text = """
li r1 0                ; registers a name of one byte: 0
li r2 b0
li r3 2
li r4 2
li r5 l0
sys 6
li r1 1
li r2 1008
li r3 16
sys 7
li r6 1008
lb r1 r6 0
sys 2
li r1 0                ; of 16: 0
li r2 b1
li r3 17
li r4 2
li r5 l1
sys 6
li r1 1
li r2 1008
li r3 16
sys 7
li r6 1008
lb r1 r6 0
sys 2
li r1 0                ; of 17: 5
li r2 b2
li r3 18
li r4 2
li r5 l2
sys 6
li r1 1
li r2 1008
li r3 16
sys 7
li r6 1008
lb r1 r6 0
sys 2
li r1 0                ; of none: 5
li r2 b3
li r3 1
li r4 2
li r5 l3
sys 6
li r1 1
li r2 1008
li r3 16
sys 7
li r6 1008
lb r1 r6 0
sys 2
li r1 0                ; a reply link to keep: 4, over the first link
li r2 b4
li r3 2
li r4 2
li r5 l4
sys 6
li r1 1
li r2 1008
li r3 16
sys 7
li r6 1008
lb r1 r6 0
sys 2
li r1 0                ; looks up: 1
li r2 b5
li r3 17
li r4 1
li r5 l5
sys 6
li r1 1
li r2 1008
li r3 16
sys 7
li r6 1008
lb r1 r6 0
sys 2
li r1 1                ; an order without a child: 2
li r2 b6
li r3 1
li r4 1
li r5 l6
sys 6
li r1 1
li r2 1008
li r3 16
sys 7
li r6 1008
lb r1 r6 0
sys 2
li r1 1                ; an image of a number above 255: 2
li r2 b7
li r3 4
li r4 1
li r5 l7
sys 6
li r1 1
li r2 1008
li r3 16
sys 7
li r6 1008
lb r1 r6 0
sys 2
li r1 3                ; a request for a child over a control link: 2
li r2 b8
li r3 4
li r4 1
li r5 l8
sys 6
li r1 1
li r2 1008
li r3 16
sys 7
li r6 1008
lb r1 r6 0
sys 2
li r1 1                ; a machine with blocks and no slot: 1
li r2 b9
li r3 4
li r4 1
li r5 l9
sys 6
li r1 1
li r2 1008
li r3 16
sys 7
li r6 1008
lb r1 r6 0
sys 2
li r1 1                ; with a slot and too few blocks: 1
li r2 b10
li r3 4
li r4 1
li r5 l10
sys 6
li r1 1
li r2 1008
li r3 16
sys 7
li r6 1008
lb r1 r6 0
sys 2
sys 1
b0: .byte 1 110
l0: .byte 2 2
b1: .byte 1 110 110 110 110 110 110 110 110 110 110 110 110 110 110 110 110
l1: .byte 2 2
b2: .byte 1 110 110 110 110 110 110 110 110 110 110 110 110 110 110 110 110 110
l2: .byte 2 2
b3: .byte 1
l3: .byte 2 2
b4: .byte 1 111
l4: .byte 2 4
b5: .byte 2 110 110 110 110 110 110 110 110 110 110 110 110 110 110 110 110
l5: .byte 2
b6: .byte 2
l6: .byte 2
b7: .byte 1 0 1 0
l7: .byte 2
b8: .byte 1 0 0 0
l8: .byte 2
b9: .byte 1 1 0 1
l9: .byte 2
b10: .byte 1 2 0 1
l10: .byte 2
"""
[[image]]
name = "other"
blocks = 2
text = """
li r1 65535
li r3 16
sys 7
"""
[[process]]
name = "a"
machine = 0
image = "edges"
links = [
    { to = "switchboard" },
    { to = "manager" },
    { to = "a", code = 9 },
    { control = "b" },
    { to = "b", reply = true },
]
[[process]]
name = "b"
machine = 0
image = "other"

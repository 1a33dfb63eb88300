machine = [{ slots = 64, blocks = 64 }, { slots = 1, blocks = 1 }, { slots = 2, blocks = 2 }]
process = [
{ name = "boss", machine = 1, image = "boss", links = [{ to = "manager" }, { control = "child" }] },
{ name = "child", machine = 2, image = "waits" },
{ name = "w1", machine = 0, image = "waits" }, { name = "w2", machine = 0, image = "waits" }, { name = "w3", machine = 0, image = "waits" }, { name = "w4", machine = 0, image = "waits" },
{ name = "w5", machine = 0, image = "waits" }, { name = "w6", machine = 0, image = "waits" }, { name = "w7", machine = 0, image = "waits" }, { name = "w8", machine = 0, image = "waits" },
{ name = "w9", machine = 0, image = "waits" }, { name = "w10", machine = 0, image = "waits" }, { name = "w11", machine = 0, image = "waits" }, { name = "w12", machine = 0, image = "waits" },
{ name = "w13", machine = 0, image = "waits" }, { name = "w14", machine = 0, image = "waits" }, { name = "w15", machine = 0, image = "waits" }, { name = "w16", machine = 0, image = "waits" },
{ name = "w17", machine = 0, image = "waits" }, { name = "w18", machine = 0, image = "waits" }, { name = "w19", machine = 0, image = "waits" }, { name = "w20", machine = 0, image = "waits" },
{ name = "w21", machine = 0, image = "waits" }, { name = "w22", machine = 0, image = "waits" }, { name = "w23", machine = 0, image = "waits" }, { name = "w24", machine = 0, image = "waits" },
{ name = "w25", machine = 0, image = "waits" }, { name = "w26", machine = 0, image = "waits" }, { name = "w27", machine = 0, image = "waits" }, { name = "w28", machine = 0, image = "waits" },
{ name = "w29", machine = 0, image = "waits" }, { name = "w30", machine = 0, image = "waits" }, { name = "w31", machine = 0, image = "waits" }, { name = "w32", machine = 0, image = "waits" },
{ name = "w33", machine = 0, image = "waits" }, { name = "w34", machine = 0, image = "waits" }, { name = "w35", machine = 0, image = "waits" }, { name = "w36", machine = 0, image = "waits" },
{ name = "w37", machine = 0, image = "waits" }, { name = "w38", machine = 0, image = "waits" }, { name = "w39", machine = 0, image = "waits" }, { name = "w40", machine = 0, image = "waits" },
]
[[image]]
name = "waits"
blocks = 1
text = "sys 7"
[[image]]
name = "boss"
blocks = 1
text = """
li r2 1         ; MAKE a link to itself on channel 1: slot 2
sys 3
li r1 0         ; SEND to the manager: make a process of image 0 on machine 2
li r2 make
li r3 4
li r4 1
li r5 slots
sys 6
li r1 1         ; SEND over the control link: move to machine 0, without a link for the answer, again and again
li r2 move
li r3 2
li r4 0
again: sys 6
jmp again
make: .byte 1 2 0 0
move: .byte 5 0
slots: .byte 2
"""

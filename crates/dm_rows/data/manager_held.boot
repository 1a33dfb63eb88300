[[machine]]
slots = 0
blocks = 0
[[machine]]
slots = 1
blocks = 1
[[machine]]
slots = 2
blocks = 2
[[image]]
name = "waits"
blocks = 1
text = "sys 7"
[[image]]
name = "boss"
blocks = 1
text = """
li r2 1         ; MAKE a link to itself on channel 1: slot 2
sys 3
li r1 0         ; SEND to the manager: make a process of image 0 on machine 1, twice
li r2 create
li r3 4
li r4 1
li r5 slots
sys 6
sys 6
li r1 1         ; SEND over the control link: move to machine 2
li r2 move
li r3 2
sys 6
li r1 0         ; and again and again what asks for nothing, without a link for an answer
li r4 0
again: sys 6
jmp again
create: .byte 1 1 0 0
move: .byte 5 2
slots: .byte 2
"""
[[process]]
name = "child"
machine = 1
image = "waits"
links = []
[[process]]
name = "boss"
machine = 2
image = "boss"
links = [{ to = "manager" }, { control = "child" }]

[[machine]]
slots = 1
blocks = 1
[[machine]]
slots = 1
blocks = 1
[[machine]]
slots = 2
blocks = 2
[[image]]
name = "waits"
blocks = 1
text = "sys 7"
[[image]]
name = "boss"
blocks = 1
text = """
li r2 1         ; MAKE a link to itself on channel 1: slot 1
sys 3
li r1 0         ; SEND to the manager: make a process of image 0 on machine 1, and on machine 2
li r2 near
li r3 4
li r4 1
li r5 slots
sys 6
li r2 far
sys 6
sys 7
near: .byte 1 1 0 0
far: .byte 1 2 0 0
slots: .byte 1
"""
[[process]]
name = "boss"
machine = 0
image = "boss"
links = [{ to = "manager" }]

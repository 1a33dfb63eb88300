[[machine]]
slots = 3
blocks = 3
[[machine]]
slots = 1
blocks = 1
[[machine]]
slots = 2
blocks = 2
[[image]]
name = "child"
blocks = 1
text = "sys 7"
[[image]]
name = "boss"
blocks = 1
text = """
li r2 1         ; MAKE a link to itself on channel 1: slot 2
sys 3
li r1 0         ; SEND over the control link: stop, resume, move to machine 0, kill
li r2 stop
li r3 1
sys 6
li r2 resume
sys 6
li r2 move
li r3 2
li r4 1
li r5 slots
sys 6
li r2 kill
li r3 1
li r4 0
sys 6
li r1 1         ; SEND to the manager: make a process of image 0 on machine 1, and on machine 0
li r2 near
li r3 4
li r4 1
sys 6
li r2 far
sys 6
again: li r1 2  ; RECEIVE on channel 1, again and again
li r2 buffer
sys 7
jmp again
stop: .byte 2
resume: .byte 3
kill: .byte 4
move: .byte 5 0
slots: .byte 2
near: .byte 1 1 0 0
far: .byte 1 0 0 0
buffer: .zero 4
"""
[[process]]
name = "child"
machine = 2
image = "child"
links = []
[[process]]
name = "boss"
machine = 0
image = "boss"
links = [{ control = "child" }, { to = "manager" }]

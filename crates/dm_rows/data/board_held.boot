[[machine]]
slots = 0
blocks = 0
[[machine]]
slots = 1
blocks = 1
[[machine]]
slots = 1
blocks = 1
[[image]]
name = "client"
blocks = 1
text = """
li r2 1         ; MAKE a link to itself on channel 1: slot 1
sys 3
li r1 0         ; SEND to the switchboard: register "a", with that link for the answer and to keep
li r2 body
li r3 2
li r4 2
li r5 slots
sys 6
li r4 0         ; then again and again the same without a link, which nobody answers
again: sys 6
jmp again
body: .byte 1 97
slots: .byte 1 1
"""
[[process]]
name = "client"
machine = 2
image = "client"
links = [{ to = "switchboard" }]

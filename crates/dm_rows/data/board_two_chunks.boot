[[machine]]
slots = 1
blocks = 1
[[machine]]
slots = 0
blocks = 0
[[image]]
name = "names"
blocks = 1
text = """
li r2 1         ; MAKE a link to itself on channel 1: slot 1
sys 3
li r1 0
li r2 body
li r3 15
li r4 2
li r5 slots
li r6 0
li r7 1
again: sys 6    ; SEND to the switchboard: register a name of 14 bytes, and then, again and again, one of 13
li r3 14
lb r6 r2 1      ; the next name's first byte is one more
add r6 r6 r7
sb r6 r2 1
jmp again
body: .byte 1 97 98 99 100 101 102 103 104 105 106 107 108 109 110
slots: .byte 1 1
"""
[[process]]
name = "names"
machine = 0
image = "names"
links = [{ to = "switchboard" }]

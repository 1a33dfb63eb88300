# Two who eat need two forks each, and take them one after the other: the one the left fork first, the other the right one. Where
# each has one, both wait for ever.

[[machine]]
slots = 3
blocks = 3

[[machine]]
slots = 1
blocks = 1

[[image]]
name = "fork"
blocks = 1
text = """
next: li r1 1   ; RECEIVE on channel 0: who wants it
sys RECEIVE
sys SEND        ; SEND it over the link in the slot that the code names: r3 and r4 are 0
li r1 2         ; RECEIVE on channel 1: it is back
sys RECEIVE
jmp next
"""

[[image]]
name = "eater"
blocks = 1
text = """
sys SEND        ; SEND over the link in slot 0: the first fork, please
li r1 1         ; RECEIVE it
sys RECEIVE
li r1 1         ; SEND over the link in slot 1: the second one
sys SEND
li r1 1         ; RECEIVE it
sys RECEIVE
li r1 2         ; SEND over the links in slots 2 and 3: both are back
sys SEND
li r1 3
sys SEND
sys EXIT
"""

[[process]]
name = "left"
machine = 0
image = "fork"
links = [{ to = "near" }, { to = "far" }]

[[process]]
name = "right"
machine = 0
image = "fork"
links = [{ to = "near" }, { to = "far" }]

[[process]]
name = "near"
machine = 0
image = "eater"
links = [
    { to = "left", code = 0 },
    { to = "right", code = 0 },
    { to = "left", channel = 1 },
    { to = "right", channel = 1 },
]

[[process]]
name = "far"
machine = 1
image = "eater"
links = [
    { to = "left", code = 1 },
    { to = "right", code = 1 },
    { to = "left", channel = 1 },
    { to = "right", channel = 1 },
]

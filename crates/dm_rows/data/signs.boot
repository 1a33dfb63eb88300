# `server` moves, and is called off while it moves back; `client` sends to it; `boss` has it stopped.

[[machine]]
slots = 2
blocks = 2

[[machine]]
slots = 3
blocks = 3

[[image]]
name = "server"
blocks = 1
text = """
next: li r1 1   ; RECEIVE on channel 0
li r2 buffer
li r3 8
sys 7
jmp next
buffer: .zero 8
"""

[[image]]
name = "client"
blocks = 1
text = """
li r2 text      ; SEND over the link in slot 0, four times
li r3 1
sys 6
sys 6
sys 6
sys 6
sys 1           ; EXIT
text: .byte 49
"""

[[image]]
name = "boss"
blocks = 1
text = """
li r2 stop      ; SEND over the link that controls
li r3 1
sys 6
sys 1           ; EXIT
stop: .byte 2
"""

[[process]]
name = "server"
machine = 0
image = "server"

[[process]]
name = "client"
machine = 1
image = "client"
links = [{ to = "server" }]

[[process]]
name = "boss"
machine = 1
image = "boss"
links = [{ control = "server" }]

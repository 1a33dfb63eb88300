[[machine]]
slots = 1
blocks = 1
[[machine]]
slots = 2
blocks = 2
[[machine]]
slots = 2
blocks = 2
[[image]]
name = "loops"
blocks = 1
text = "again: jmp again"
[[process]]
name = "a"
machine = 1
image = "loops"
[[process]]
name = "b"
machine = 2
image = "loops"

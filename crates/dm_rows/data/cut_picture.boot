[[machine]]
slots = 1
blocks = 1
[[machine]]
slots = 1
blocks = 1
[[image]]
name = "a"
blocks = 1
text = "li r2 t\nli r3 1\nsys 6\nsys 1\nt: .byte 49"
[[process]]
name = "a"
machine = 0
image = "a"
links = [{ to = "b" }]
[[process]]
name = "b"
machine = 1
image = "a"

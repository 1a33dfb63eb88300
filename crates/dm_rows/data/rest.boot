[[machine]]
slots = 4
blocks = 16
[[machine]]
slots = 4
blocks = 16
[[image]]
name = "a"
blocks = 1
text = "li r2 t\nli r3 2\nsys 6\nsys 1\nt: .byte 104 105"
[[image]]
name = "b"
blocks = 1
text = "li r1 1\nli r2 64\nli r3 8\nsys 7\nli r6 64\nlb r1 r6 0\nsys 2\nsys 1"
[[process]]
name = "a"
machine = 0
image = "a"
links = [{ to = "b", code = 7 }]
[[process]]
name = "b"
machine = 1
image = "b"

[[machine]]
slots = 1
blocks = 1
[[machine]]
slots = 1
blocks = 1
[[image]]
name = "asks"
blocks = 1
text = "li r2 name\nli r3 3\nsys 6\nsys 7\nname: .byte 2 104 105"
[[process]]
name = "near"
machine = 0
image = "asks"
links = [{ to = "switchboard" }]
[[process]]
name = "far"
machine = 1
image = "asks"
links = [{ to = "switchboard" }]

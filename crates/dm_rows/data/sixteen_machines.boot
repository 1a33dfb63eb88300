[[machine]]
slots = 1
blocks = 1
[[machine]]
slots = 1
blocks = 1
[[machine]]
slots = 1
blocks = 1
[[machine]]
slots = 1
blocks = 1
[[machine]]
slots = 1
blocks = 1
[[machine]]
slots = 1
blocks = 1
[[machine]]
slots = 1
blocks = 1
[[machine]]
slots = 1
blocks = 1
[[machine]]
slots = 1
blocks = 1
[[machine]]
slots = 1
blocks = 1
[[machine]]
slots = 1
blocks = 1
[[machine]]
slots = 1
blocks = 1
[[machine]]
slots = 1
blocks = 1
[[machine]]
slots = 1
blocks = 1
[[machine]]
slots = 1
blocks = 1
[[machine]]
slots = 1
blocks = 1
[[image]]
name = "guest"
blocks = 1
text = "sys EXIT"
[[process]]
name = "guest"
machine = 0
image = "guest"

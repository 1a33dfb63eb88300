[[machine]]
slots = 6
blocks = 12
[[machine]]
slots = 6
blocks = 12
[[machine]]
slots = 6
blocks = 12
[[image]]
name = "end"
blocks = 1
text = "sys 1"
[[process]]
name = "guest"
machine = 0
image = "end"
links = []

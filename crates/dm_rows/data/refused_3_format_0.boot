format = 0
[[machine]]
slots = 0
blocks = 0

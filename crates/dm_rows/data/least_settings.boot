format = 1
numbers = 1
quantum = 1
[[machine]]
slots = 0
blocks = 0

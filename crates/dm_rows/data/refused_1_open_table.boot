

[[machine]
slots = 1

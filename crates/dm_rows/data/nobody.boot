[[machine]]
slots = 0
blocks = 0

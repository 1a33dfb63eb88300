image = [{ name = "a", blocks = 1, text = "sys 1" }, 3]
process = [4]

[[machine]]
slots = 4
blocks = 4

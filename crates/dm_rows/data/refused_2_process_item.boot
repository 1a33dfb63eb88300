process = [{ name = "a", image = "a", machine = 0 }, { name = "b", image = "a", machine = 0 }, "c"]

[[machine]]
slots = 4
blocks = 4

[[image]]
name = "a"
blocks = 1
text = "sys 1"

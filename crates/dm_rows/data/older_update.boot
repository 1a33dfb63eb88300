[[machine]]
slots = 2
blocks = 4
[[machine]]
slots = 2
blocks = 4
[[machine]]
slots = 2
blocks = 4
[[machine]]
slots = 2
blocks = 4
[[image]]
name = "owner"
blocks = 2
text = "sys 7"
[[image]]
name = "mover"
blocks = 3
text = """
li r4 256
li r5 512
sys 8
sys 7
"""
[[process]]
name = "a"
machine = 0
image = "owner"
[[process]]
name = "b"
machine = 3
image = "mover"
links = [{ to = "a", len = 512, read = true }]

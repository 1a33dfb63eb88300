format = 2
[[machine]]
slots = 2
blocks = 4
[[machine]]
slots = 2
blocks = 4
[[image]]
name = "moves"
blocks = 2
text = """
li r4 64
li r5 300
sys 8
sys 7
"""
[[process]]
name = "owner"
machine = 1
image = "moves"
[[process]]
name = "largest"
machine = 0
image = "moves"
links = [
{ to = "owner", len = 300, read = true }, { to = "owner", len = 300, read = true }, { to = "owner", len = 300, read = true }, { to = "owner", len = 300, read = true },
{ to = "owner", len = 300, read = true }, { to = "owner", len = 300, read = true }, { to = "owner", len = 300, read = true }, { to = "owner", len = 300, read = true },
{ to = "owner", len = 300, read = true }, { to = "owner", len = 300, read = true }, { to = "owner", len = 300, read = true }, { to = "owner", len = 300, read = true },
{ to = "owner", len = 300, read = true }, { to = "owner", len = 300, read = true }, { to = "owner", len = 300, read = true }, { to = "owner", len = 300, read = true },
{ to = "owner", len = 300, read = true }, { to = "owner", len = 300, read = true }, { to = "owner", len = 300, read = true }, { to = "owner", len = 300, read = true },
{ to = "owner", len = 300, read = true }, { to = "owner", len = 300, read = true }, { to = "owner", len = 300, read = true }, { to = "owner", len = 300, read = true },
{ to = "owner", len = 300, read = true }, { to = "owner", len = 300, read = true }, { to = "owner", len = 300, read = true }, { to = "owner", len = 300, read = true },
{ to = "owner", len = 300, read = true }, { to = "owner", len = 300, read = true }, { to = "owner", len = 300, read = true }, { to = "owner", len = 300, read = true },
{ to = "owner", len = 300, read = true }, { to = "owner", len = 300, read = true }, { to = "owner", len = 300, read = true }, { to = "owner", len = 300, read = true },
{ to = "owner", len = 300, read = true }, { to = "owner", len = 300, read = true }, { to = "owner", len = 300, read = true }, { to = "owner", len = 300, read = true },
{ to = "owner", len = 300, read = true }, { to = "owner", len = 300, read = true }, { to = "owner", len = 300, read = true }, { to = "owner", len = 300, read = true },
{ to = "owner", len = 300, read = true }, { to = "owner", len = 300, read = true }, { to = "owner", len = 300, read = true }, { to = "owner", len = 300, read = true },
{ to = "owner", len = 300, read = true }, { to = "owner", len = 300, read = true }, { to = "owner", len = 300, read = true }, { to = "owner", len = 300, read = true },
{ to = "owner", len = 300, read = true }, { to = "owner", len = 300, read = true }, { to = "owner", len = 300, read = true }, { to = "owner", len = 300, read = true },
{ to = "owner", len = 300, read = true }, { to = "owner", len = 300, read = true }, { to = "owner", len = 300, read = true }, { to = "owner", len = 300, read = true },
{ to = "owner", len = 300, read = true }, { to = "owner", len = 300, read = true }, { to = "owner", len = 300, read = true }, { to = "owner", len = 300, read = true },
{ to = "owner", len = 300, read = true }, { to = "owner", len = 300, read = true }, { to = "owner", len = 300, read = true }, { to = "owner", len = 300, read = true },
{ to = "owner", len = 300, read = true }, { to = "owner", len = 300, read = true }, { to = "owner", len = 300, read = true }, { to = "owner", len = 300, read = true },
{ to = "owner", len = 300, read = true }, { to = "owner", len = 300, read = true }, { to = "owner", len = 300, read = true }, { to = "owner", len = 300, read = true },
{ to = "owner", len = 300, read = true }, { to = "owner", len = 300, read = true }, { to = "owner", len = 300, read = true }, { to = "owner", len = 300, read = true },
{ to = "owner", len = 300, read = true }, { to = "owner", len = 300, read = true }, { to = "owner", len = 300, read = true }, { to = "owner", len = 300, read = true },
{ to = "owner", len = 300, read = true }, { to = "owner", len = 300, read = true }, { to = "owner", len = 300, read = true }, { to = "owner", len = 300, read = true },
{ to = "owner", len = 300, read = true }, { to = "owner", len = 300, read = true }, { to = "owner", len = 300, read = true }, { to = "owner", len = 300, read = true },
{ to = "owner", len = 300, read = true }, { to = "owner", len = 300, read = true }, { to = "owner", len = 300, read = true }, { to = "owner", len = 300, read = true },
{ to = "owner", len = 300, read = true }, { to = "owner", len = 300, read = true }, { to = "owner", len = 300, read = true }, { to = "owner", len = 300, read = true },
{ to = "owner", len = 300, read = true }, { to = "owner", len = 300, read = true }, { to = "owner", len = 300, read = true }, { to = "owner", len = 300, read = true },
{ to = "owner", len = 300, read = true }, { to = "owner", len = 300, read = true }, { to = "owner", len = 300, read = true }, { to = "owner", len = 300, read = true },
{ to = "owner", len = 300, read = true }, { to = "owner", len = 300, read = true }, { to = "owner", len = 300, read = true }, { to = "owner", len = 300, read = true },
{ to = "owner", len = 300, read = true }, { to = "owner", len = 300, read = true }, { to = "owner", len = 300, read = true }, { to = "owner", len = 300, read = true },
{ to = "owner", len = 300, read = true }, { to = "owner", len = 300, read = true }, { to = "owner", len = 300, read = true }, { to = "owner", len = 300, read = true },
{ to = "owner", len = 300, read = true }, { to = "owner", len = 300, read = true }, { to = "owner", len = 300, read = true }, { to = "owner", len = 300, read = true },
{ to = "owner", len = 300, read = true }, { to = "owner", len = 300, read = true }, { to = "owner", len = 300, read = true }, { to = "owner", len = 300, read = true },
]

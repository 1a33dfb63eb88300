[[machine]]
slots = 7
blocks = 16
[[machine]]
slots = 7
blocks = 16
[[image]]
name = "loops"
blocks = 1
text = "jmp 0"
[[image]]
name = "waits"
blocks = 1
text = "sys 7"
[[image]]
name = "moves"
blocks = 2
text = """
li r4 64
li r5 300
sys 8
sys 7
"""
[[process]]
name = "owner"
machine = 1
image = "moves"
[[process]]
name = "ready_17"
machine = 0
image = "loops"
links = [{ to = "owner", len = 300, read = true }, { to = "owner", len = 300, read = true }, { to = "owner", len = 300, read = true }, { to = "owner", len = 300, read = true }, { to = "owner", len = 300, read = true }, { to = "owner", len = 300, read = true }, { to = "owner", len = 300, read = true }, { to = "owner", len = 300, read = true }, { to = "owner", len = 300, read = true }, { to = "owner", len = 300, read = true }, { to = "owner", len = 300, read = true }, { to = "owner", len = 300, read = true }, { to = "owner", len = 300, read = true }, { to = "owner", len = 300, read = true }, { to = "owner", len = 300, read = true }, { to = "owner", len = 300, read = true }, { to = "owner", len = 300, read = true }]
[[process]]
name = "ready_18"
machine = 0
image = "loops"
links = [{ to = "owner", len = 300, read = true }, { to = "owner", len = 300, read = true }, { to = "owner", len = 300, read = true }, { to = "owner", len = 300, read = true }, { to = "owner", len = 300, read = true }, { to = "owner", len = 300, read = true }, { to = "owner", len = 300, read = true }, { to = "owner", len = 300, read = true }, { to = "owner", len = 300, read = true }, { to = "owner", len = 300, read = true }, { to = "owner", len = 300, read = true }, { to = "owner", len = 300, read = true }, { to = "owner", len = 300, read = true }, { to = "owner", len = 300, read = true }, { to = "owner", len = 300, read = true }, { to = "owner", len = 300, read = true }, { to = "owner", len = 300, read = true }, { to = "owner", len = 300, read = true }]
[[process]]
name = "waiting_16"
machine = 0
image = "waits"
links = [{ to = "owner", len = 300, read = true }, { to = "owner", len = 300, read = true }, { to = "owner", len = 300, read = true }, { to = "owner", len = 300, read = true }, { to = "owner", len = 300, read = true }, { to = "owner", len = 300, read = true }, { to = "owner", len = 300, read = true }, { to = "owner", len = 300, read = true }, { to = "owner", len = 300, read = true }, { to = "owner", len = 300, read = true }, { to = "owner", len = 300, read = true }, { to = "owner", len = 300, read = true }, { to = "owner", len = 300, read = true }, { to = "owner", len = 300, read = true }, { to = "owner", len = 300, read = true }, { to = "owner", len = 300, read = true }]
[[process]]
name = "waiting_17"
machine = 0
image = "waits"
links = [{ to = "owner", len = 300, read = true }, { to = "owner", len = 300, read = true }, { to = "owner", len = 300, read = true }, { to = "owner", len = 300, read = true }, { to = "owner", len = 300, read = true }, { to = "owner", len = 300, read = true }, { to = "owner", len = 300, read = true }, { to = "owner", len = 300, read = true }, { to = "owner", len = 300, read = true }, { to = "owner", len = 300, read = true }, { to = "owner", len = 300, read = true }, { to = "owner", len = 300, read = true }, { to = "owner", len = 300, read = true }, { to = "owner", len = 300, read = true }, { to = "owner", len = 300, read = true }, { to = "owner", len = 300, read = true }, { to = "owner", len = 300, read = true }]
[[process]]
name = "moving_15"
machine = 0
image = "moves"
links = [{ to = "owner", len = 300, read = true }, { to = "owner", len = 300, read = true }, { to = "owner", len = 300, read = true }, { to = "owner", len = 300, read = true }, { to = "owner", len = 300, read = true }, { to = "owner", len = 300, read = true }, { to = "owner", len = 300, read = true }, { to = "owner", len = 300, read = true }, { to = "owner", len = 300, read = true }, { to = "owner", len = 300, read = true }, { to = "owner", len = 300, read = true }, { to = "owner", len = 300, read = true }, { to = "owner", len = 300, read = true }, { to = "owner", len = 300, read = true }, { to = "owner", len = 300, read = true }]
[[process]]
name = "moving_16"
machine = 0
image = "moves"
links = [{ to = "owner", len = 300, read = true }, { to = "owner", len = 300, read = true }, { to = "owner", len = 300, read = true }, { to = "owner", len = 300, read = true }, { to = "owner", len = 300, read = true }, { to = "owner", len = 300, read = true }, { to = "owner", len = 300, read = true }, { to = "owner", len = 300, read = true }, { to = "owner", len = 300, read = true }, { to = "owner", len = 300, read = true }, { to = "owner", len = 300, read = true }, { to = "owner", len = 300, read = true }, { to = "owner", len = 300, read = true }, { to = "owner", len = 300, read = true }, { to = "owner", len = 300, read = true }, { to = "owner", len = 300, read = true }]

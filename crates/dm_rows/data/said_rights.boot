quantum = 7
[[machine]]
slots = 3
blocks = 3
[[image]]
name = "a"
blocks = 1
text = "sys 1"
[[process]]
name = "p"
machine = 0
image = "a"
links = [
    { to = "q", base = 1, len = 2, read = true },
    { to = "q", code = 3, channel = 4, base = 5, len = 6, write = true },
    { to = "q", len = 256, reply = true, read = true, write = true },
    { to = "switchboard" },
    { control = "q" },
]
[[process]]
name = "q"
machine = 0
image = "a"

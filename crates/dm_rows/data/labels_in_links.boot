machine = [{ slots = 2, blocks = 3 }]
[[image]]
name = "a"
blocks = 1
text = "sys EXIT"
[[image]]
name = "b"
blocks = 1
text = '''
front: sys EXIT
buffer: .zero 8
behind:
'''
[[process]]
name = "p"
machine = 0
image = "a"
links = [
    { to = "q", base = "buffer", len = "behind", read = true },
    { to = "q", base = "front", len = "front" },
    { to = "q", base = "behind", len = 244 },
    { to = "q", base = 12, len = "behind" },
    { to = "q", len = "buffer" },
    { to = "q", base = "buffer" }
]
[[process]]
name = "q"
machine = 0
image = "b"

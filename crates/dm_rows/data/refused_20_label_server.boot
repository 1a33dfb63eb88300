machine = [{ slots = 2, blocks = 3 }]
[[image]]
name = "a"
blocks = 1
text = "sys EXIT"
[[image]]
name = "b"
blocks = 1
text = '''
front: sys EXIT
buffer: .zero 8
behind:
'''
[[process]]
name = "p"
machine = 0
image = "a"
links = [
    { to = "manager", base = "buffer" }
]
[[process]]
name = "q"
machine = 0
image = "b"

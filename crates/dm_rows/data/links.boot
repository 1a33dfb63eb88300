format = 2
[[machine]]
slots = 1
blocks = 1
[[machine]]
slots = 1
blocks = 1
[[image]]
name = "a"
blocks = 1
text = '''
sys 7
'''
[[process]]
name = "a"
machine = 0
image = "a"
links = [
{ to = 'b', code = 4294967295, channel = 0, base = 0, len = 256 },
{ to = 'b', code = 1, channel = 31, base = 1, len = 255, read = true },
{ to = 'b', code = 2, channel = 2, base = 2, len = 254, write = true },
{ to = 'b', code = 3, channel = 3, base = 3, len = 253, read = true, write = true },
{ to = 'b', code = 4, channel = 4, reply = true, base = 4, len = 252 },
{ to = 'b', code = 5, channel = 5, reply = true, base = 5, len = 251, read = true },
{ to = 'b', code = 6, channel = 6, reply = true, base = 6, len = 250, write = true },
{ to = 'b', code = 7, channel = 7, reply = true, base = 7, len = 249, read = true, write = true },
{ to = 'switchboard', channel = 2, reply = true },
{ control = 'a' },
{ to = 'a' }, { to = 'a' }, { to = 'a' }, { to = 'a' }, { to = 'a' }, { to = 'a' }, { to = 'a' }, { to = 'a' },
{ to = 'a' }, { to = 'a' }, { to = 'a' }, { to = 'a' }, { to = 'a' }, { to = 'a' }, { to = 'a' }, { to = 'a' },
{ to = 'a' }, { to = 'a' }, { to = 'a' }, { to = 'a' }, { to = 'a' }, { to = 'a' }, { to = 'a' },
]
[[process]]
name = "b"
machine = 1
image = "a"

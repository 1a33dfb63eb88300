[[machine]]
slots = 2
blocks = 5
[[machine]]
slots = 2
blocks = 5
[[image]]
name = "subject"
blocks = 3
text = '''
li r1 7
li r2 700
sw r1 r2 0
sys 7
'''
[[image]]
name = "waits"
blocks = 1
text = '''
sys 7
'''
[[process]]
name = "subject"
machine = 0
image = "subject"
links = [
{ to = 'subject', code = 0, channel = 0, reply = true, base = 0, len = 0, read = true, write = true },
{ to = 'other', code = 1, channel = 1 },
{ to = 'subject', code = 2, channel = 2 },
{ to = 'other', code = 3, channel = 3, reply = true },
{ to = 'subject', code = 4, channel = 4 },
{ to = 'other', code = 5, channel = 5, base = 5, len = 5, read = true, write = true },
{ to = 'subject', code = 6, channel = 6, reply = true },
{ to = 'other', code = 7, channel = 7 },
{ to = 'subject', code = 8, channel = 8 },
{ to = 'other', code = 9, channel = 9, reply = true },
{ to = 'subject', code = 10, channel = 10, base = 10, len = 10, read = true, write = true },
{ to = 'other', code = 11, channel = 11 },
{ to = 'subject', code = 12, channel = 12, reply = true },
{ to = 'other', code = 13, channel = 13 },
{ to = 'subject', code = 14, channel = 14 },
{ to = 'other', code = 15, channel = 15, reply = true, base = 15, len = 15, read = true, write = true },
{ to = 'subject', code = 16, channel = 16 },
{ to = 'other', code = 17, channel = 17 },
{ to = 'subject', code = 18, channel = 18, reply = true },
{ to = 'other', code = 19, channel = 19 },
{ to = 'subject', code = 20, channel = 20, base = 20, len = 20, read = true, write = true },
{ to = 'other', code = 21, channel = 21, reply = true },
{ to = 'subject', code = 22, channel = 22 },
{ to = 'other', code = 23, channel = 23 },
{ to = 'subject', code = 24, channel = 24, reply = true },
{ to = 'other', code = 25, channel = 25, base = 25, len = 25, read = true, write = true },
{ to = 'subject', code = 26, channel = 26 },
{ to = 'other', code = 27, channel = 27, reply = true },
{ to = 'subject', code = 28, channel = 28 },
{ to = 'other', code = 29, channel = 29 },
{ to = 'subject', code = 30, channel = 30, reply = true, base = 30, len = 30, read = true, write = true },
{ to = 'other', code = 31, channel = 31 },
]
[[process]]
name = "other"
machine = 0
image = "waits"

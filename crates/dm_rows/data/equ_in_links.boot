[[machine]]
slots = 2
blocks = 2
[[image]]
name = "a"
blocks = 1
text = '''
exit
.equ buffer 128
.equ end 192
'''
[[process]]
name = "a"
machine = 0
image = "a"
[[process]]
name = "b"
machine = 0
image = "a"
links = [{ to = "a", base = "buffer", len = "end", read = true, write = true }]

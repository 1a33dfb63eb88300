[[machine]]
slots = 1
blocks = 256
[[image]]
name = "a"
blocks = 256
text = '''
.zero 65535
.align 2
.align 3
'''
[[process]]
name = "a"
machine = 0
image = "a"

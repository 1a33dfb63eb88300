[[machine]]
slots = 1
blocks = 256
[[image]]
name = "a"
blocks = 256
text = '''
.byte 1
.align 0
.align 1
.align 65537
.align 65536
.align x
.align -4
.align
.align 4 4
'''
[[process]]
name = "a"
machine = 0
image = "a"

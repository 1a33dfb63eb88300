[[machine]]
slots = 1
blocks = 256
[[image]]
name = "a"
blocks = 256
text = '''
sys EXIT
.align 65536
'''
[[process]]
name = "a"
machine = 0
image = "a"

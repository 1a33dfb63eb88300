[[machine]]
slots = 1
blocks = 256
[[image]]
name = "a"
blocks = 256
text = '''
.zero 65534
.ascii "ab"
.ascii ""
.ascii "c"
'''
[[process]]
name = "a"
machine = 0
image = "a"

[[machine]]
slots = 1
blocks = 3
[[image]]
name = "a"
blocks = 2
text = '''
send 0 r1 2
'''
[[process]]
name = "a"
machine = 0
image = "a"

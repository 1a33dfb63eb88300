[[machine]]
slots = 1
blocks = 3
[[image]]
name = "a"
blocks = 1
text = '''
sys send
sys SENDS
sys SEND 1
li r1 SEND
sys SEND
SEND
'''
[[process]]
name = "a"
machine = 0
image = "a"

[[machine]]
slots = 1
blocks = 1
[[machine]]
slots = 1
blocks = 1
[[image]]
name = "a"
blocks = 1
text = '''
li r1 10
sys 2
sys 1
'''
[[process]]
name = "a"
machine = 0
image = "a"

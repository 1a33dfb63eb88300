numbers = 4
[[machine]]
slots = 1
blocks = 1
[[machine]]
slots = 2
blocks = 2
[[machine]]
slots = 1
blocks = 1
[[image]]
name = "a"
blocks = 1
text = '''
sys 6
sys 7
'''
[[process]]
name = "a"
machine = 0
image = "a"
links = [{ to = 'b' }]
[[process]]
name = "b"
machine = 1
image = "a"

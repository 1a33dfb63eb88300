[[machine]]
slots = 0
blocks = 0
[[machine]]
slots = 0
blocks = 0
[[machine]]
slots = 0
blocks = 0
[[machine]]
slots = 0
blocks = 0
[[machine]]
slots = 0
blocks = 0
[[machine]]
slots = 0
blocks = 0
[[machine]]
slots = 0
blocks = 0
[[machine]]
slots = 0
blocks = 0
[[machine]]
slots = 0
blocks = 0
[[machine]]
slots = 0
blocks = 0
[[machine]]
slots = 2
blocks = 2
[[machine]]
slots = 0
blocks = 0
[[machine]]
slots = 0
blocks = 0
[[machine]]
slots = 2
blocks = 2
[[machine]]
slots = 0
blocks = 0
[[machine]]
slots = 2
blocks = 2
[[image]]
name = "sends"
blocks = 1
text = '''
sys 6
sys 6
sys 1
'''
[[image]]
name = "waits"
blocks = 1
text = '''
sys 7
'''
[[process]]
name = "a"
machine = 15
image = "sends"
links = [{ to = 'b' }]
[[process]]
name = "b"
machine = 13
image = "waits"

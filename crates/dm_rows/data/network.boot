[[machine]]
slots = 1
blocks = 1
[[machine]]
slots = 1
blocks = 1
[[machine]]
slots = 1
blocks = 1
[[image]]
name = "sends"
blocks = 1
text = '''
li r1 1
sys 6
li r1 0
sys 6
sys 6
sys 6
sys 6
sys 6
sys 6
sys 6
sys 6
sys 6
sys 6
sys 6
sys 1
'''
[[image]]
name = "waits"
blocks = 1
text = '''
sys 7
'''
[[process]]
name = "a"
machine = 0
image = "sends"
links = [{ to = 'b' }, { to = 'c' }]
[[process]]
name = "b"
machine = 1
image = "waits"
[[process]]
name = "c"
machine = 2
image = "waits"

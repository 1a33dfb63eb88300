[[machine]]
slots = 1
blocks = 1
[[image]]
name = "a"
blocks = 1
text = '''
li r3 8
sys 3
li r3 0
li r2 32
sys 3
li r2 31
li r4 200
li r5 57
sys 3
li r5 56
li r3 6
li r1 9
sys 3
li r3 1
li r5 0
sys 3
sys 3
sys 1
'''
[[process]]
name = "a"
machine = 0
image = "a"
links = [
{ to = 'a' }, { to = 'a' }, { to = 'a' }, { to = 'a' }, { to = 'a' }, { to = 'a' }, { to = 'a' }, { to = 'a' },
{ to = 'a' }, { to = 'a' }, { to = 'a' }, { to = 'a' }, { to = 'a' }, { to = 'a' }, { to = 'a' }, { to = 'a' },
{ to = 'a' }, { to = 'a' }, { to = 'a' }, { to = 'a' }, { to = 'a' }, { to = 'a' }, { to = 'a' }, { to = 'a' },
{ to = 'a' }, { to = 'a' }, { to = 'a' }, { to = 'a' }, { to = 'a' }, { to = 'a' },
]

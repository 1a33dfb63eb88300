[[machine]]
slots = 1
blocks = 1
[[image]]
name = "a"
blocks = 1
text = '''
li r1 32
sys 4
sys 5
li r1 31
sys 4
sys 5
li r1 1
sys 4
li r1 0
sys 4
sys 4
li r1 30
sys 5
sys 1
'''
[[process]]
name = "a"
machine = 0
image = "a"
links = [{ to = 'a' }, { to = 'a', reply = true },
{ to = 'a' }, { to = 'a' }, { to = 'a' }, { to = 'a' }, { to = 'a' }, { to = 'a' }, { to = 'a' }, { to = 'a' },
{ to = 'a' }, { to = 'a' }, { to = 'a' }, { to = 'a' }, { to = 'a' }, { to = 'a' }, { to = 'a' }, { to = 'a' },
{ to = 'a' }, { to = 'a' }, { to = 'a' }, { to = 'a' }, { to = 'a' }, { to = 'a' }, { to = 'a' }, { to = 'a' },
{ to = 'a' }, { to = 'a' }, { to = 'a' }, { to = 'a' }, { to = 'a' },
]

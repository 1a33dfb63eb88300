format = 2
[[machine]]
slots = 2
blocks = 5
[[machine]]
slots = 2
blocks = 5
[[image]]
name = "subject"
blocks = 1
text = '''
li r1 127
sys 4
li r1 128
sys 4
li r1 127
sys 5
sys 1
'''
[[process]]
name = "subject"
machine = 0
image = "subject"
links = [
{ to = 'subject' }, { to = 'subject' }, { to = 'subject' }, { to = 'subject' }, { to = 'subject' }, { to = 'subject' }, { to = 'subject' }, { to = 'subject' },
{ to = 'subject' }, { to = 'subject' }, { to = 'subject' }, { to = 'subject' }, { to = 'subject' }, { to = 'subject' }, { to = 'subject' }, { to = 'subject' },
{ to = 'subject' }, { to = 'subject' }, { to = 'subject' }, { to = 'subject' }, { to = 'subject' }, { to = 'subject' }, { to = 'subject' }, { to = 'subject' },
{ to = 'subject' }, { to = 'subject' }, { to = 'subject' }, { to = 'subject' }, { to = 'subject' }, { to = 'subject' }, { to = 'subject' }, { to = 'subject' },
{ to = 'subject' }, { to = 'subject' }, { to = 'subject' }, { to = 'subject' }, { to = 'subject' }, { to = 'subject' }, { to = 'subject' }, { to = 'subject' },
{ to = 'subject' }, { to = 'subject' }, { to = 'subject' }, { to = 'subject' }, { to = 'subject' }, { to = 'subject' }, { to = 'subject' }, { to = 'subject' },
{ to = 'subject' }, { to = 'subject' }, { to = 'subject' }, { to = 'subject' }, { to = 'subject' }, { to = 'subject' }, { to = 'subject' }, { to = 'subject' },
{ to = 'subject' }, { to = 'subject' }, { to = 'subject' }, { to = 'subject' }, { to = 'subject' }, { to = 'subject' }, { to = 'subject' }, { to = 'subject' },
{ to = 'subject' }, { to = 'subject' }, { to = 'subject' }, { to = 'subject' }, { to = 'subject' }, { to = 'subject' }, { to = 'subject' }, { to = 'subject' },
{ to = 'subject' }, { to = 'subject' }, { to = 'subject' }, { to = 'subject' }, { to = 'subject' }, { to = 'subject' }, { to = 'subject' }, { to = 'subject' },
{ to = 'subject' }, { to = 'subject' }, { to = 'subject' }, { to = 'subject' }, { to = 'subject' }, { to = 'subject' }, { to = 'subject' }, { to = 'subject' },
{ to = 'subject' }, { to = 'subject' }, { to = 'subject' }, { to = 'subject' }, { to = 'subject' }, { to = 'subject' }, { to = 'subject' }, { to = 'subject' },
{ to = 'subject' }, { to = 'subject' }, { to = 'subject' }, { to = 'subject' }, { to = 'subject' }, { to = 'subject' }, { to = 'subject' }, { to = 'subject' },
{ to = 'subject' }, { to = 'subject' }, { to = 'subject' }, { to = 'subject' }, { to = 'subject' }, { to = 'subject' }, { to = 'subject' }, { to = 'subject' },
{ to = 'subject' }, { to = 'subject' }, { to = 'subject' }, { to = 'subject' }, { to = 'subject' }, { to = 'subject' }, { to = 'subject' }, { to = 'subject' },
{ to = 'subject' }, { to = 'subject' }, { to = 'subject' }, { to = 'subject' }, { to = 'subject' }, { to = 'subject' }, { to = 'subject' }, { to = 'subject' },
]

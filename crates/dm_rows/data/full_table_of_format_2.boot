format = 2
[[machine]]
slots = 1
blocks = 3
[[image]]
name = "a"
blocks = 3
text = '''
li r2 31
sys 3              ; into slot 127
sys 3
li r1 0
sys 4
li r1 0
li r3 256
li r4 1
li r5 256
sys 6              ; a full body with a link, to itself
li r1 1
li r2 256
sys 7              ; no slot for the link
li r1 0
li r2 0
li r3 257
sys 6              ; a body too long
li r1 128
sys 4
sys 5
sys 6
sys 8
li r1 0
li r3 0
li r5 above
sys 6
sys 1
above: .byte 128
'''
[[process]]
name = "a"
machine = 0
image = "a"
links = [
{ to = 'a' }, { to = 'a' }, { to = 'a' }, { to = 'a' }, { to = 'a' }, { to = 'a' }, { to = 'a' }, { to = 'a' },
{ to = 'a' }, { to = 'a' }, { to = 'a' }, { to = 'a' }, { to = 'a' }, { to = 'a' }, { to = 'a' }, { to = 'a' },
{ to = 'a' }, { to = 'a' }, { to = 'a' }, { to = 'a' }, { to = 'a' }, { to = 'a' }, { to = 'a' }, { to = 'a' },
{ to = 'a' }, { to = 'a' }, { to = 'a' }, { to = 'a' }, { to = 'a' }, { to = 'a' }, { to = 'a' }, { to = 'a' },
{ to = 'a' }, { to = 'a' }, { to = 'a' }, { to = 'a' }, { to = 'a' }, { to = 'a' }, { to = 'a' }, { to = 'a' },
{ to = 'a' }, { to = 'a' }, { to = 'a' }, { to = 'a' }, { to = 'a' }, { to = 'a' }, { to = 'a' }, { to = 'a' },
{ to = 'a' }, { to = 'a' }, { to = 'a' }, { to = 'a' }, { to = 'a' }, { to = 'a' }, { to = 'a' }, { to = 'a' },
{ to = 'a' }, { to = 'a' }, { to = 'a' }, { to = 'a' }, { to = 'a' }, { to = 'a' }, { to = 'a' }, { to = 'a' },
{ to = 'a' }, { to = 'a' }, { to = 'a' }, { to = 'a' }, { to = 'a' }, { to = 'a' }, { to = 'a' }, { to = 'a' },
{ to = 'a' }, { to = 'a' }, { to = 'a' }, { to = 'a' }, { to = 'a' }, { to = 'a' }, { to = 'a' }, { to = 'a' },
{ to = 'a' }, { to = 'a' }, { to = 'a' }, { to = 'a' }, { to = 'a' }, { to = 'a' }, { to = 'a' }, { to = 'a' },
{ to = 'a' }, { to = 'a' }, { to = 'a' }, { to = 'a' }, { to = 'a' }, { to = 'a' }, { to = 'a' }, { to = 'a' },
{ to = 'a' }, { to = 'a' }, { to = 'a' }, { to = 'a' }, { to = 'a' }, { to = 'a' }, { to = 'a' }, { to = 'a' },
{ to = 'a' }, { to = 'a' }, { to = 'a' }, { to = 'a' }, { to = 'a' }, { to = 'a' }, { to = 'a' }, { to = 'a' },
{ to = 'a' }, { to = 'a' }, { to = 'a' }, { to = 'a' }, { to = 'a' }, { to = 'a' }, { to = 'a' }, { to = 'a' },
{ to = 'a' }, { to = 'a' }, { to = 'a' }, { to = 'a' }, { to = 'a' }, { to = 'a' }, { to = 'a' },
]

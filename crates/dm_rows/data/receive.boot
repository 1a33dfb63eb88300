[[machine]]
slots = 2
blocks = 3
[[image]]
name = "a"
blocks = 1
text = '''
li r2 text
li r3 3
li r1 0
sys 6              ; channel 0, no link
li r1 1
li r4 4
li r5 list
sys 6              ; channel 1, four links
li r3 2
li r4 3
sys 6              ; channel 1, three links
li r3 0
li r4 2
sys 6
li r4 1
sys 6
li r4 2
li r3 3
sys 6
sys 1
text: .byte 1 2 3
list: .byte 0 0 0 0
'''
[[image]]
name = "b"
blocks = 1
text = '''
li r2 200
li r3 57
sys 7              ; a buffer beyond the memory
li r3 3
li r1 2
sys 7              ; channel 1: not the first in the queue, four links
mov r1 r8
sys 2
li r1 2
li r2 200
li r3 2
sys 7              ; three links
li r1 2
sys 7              ; two
li r1 2
li r2 0
li r3 0
sys 7              ; one, which fills the table
li r1 2
sys 7              ; too long, and too many links
li r2 200
li r3 3
sys 7              ; too many links
li r1 31
sys 5
li r1 20
sys 5
li r1 2
sys 7
li r1 1
li r2 200
sys 7              ; channel 0
lb r1 r3 199
sys 2
sys 1
'''
[[process]]
name = "a"
machine = 0
image = "a"
links = [{ to = 'b', code = 4 }, { to = 'b', channel = 1, code = 5 }]
[[process]]
name = "b"
machine = 0
image = "b"
links = [
{ to = 'a' }, { to = 'a' }, { to = 'a' }, { to = 'a' }, { to = 'a' }, { to = 'a' }, { to = 'a' }, { to = 'a' },
{ to = 'a' }, { to = 'a' }, { to = 'a' }, { to = 'a' }, { to = 'a' }, { to = 'a' }, { to = 'a' }, { to = 'a' },
{ to = 'a' }, { to = 'a' }, { to = 'a' }, { to = 'a' }, { to = 'a' }, { to = 'a' },
]

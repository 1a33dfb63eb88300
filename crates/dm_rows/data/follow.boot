[[machine]]
slots = 3
blocks = 4
[[machine]]
slots = 1
blocks = 1
[[machine]]
slots = 4
blocks = 4
[[image]]
name = "named"
blocks = 1
text = '''
li r2 register
li r3 2
li r4 2
li r5 both
sys 6              ; registers itself
li r1 1
sys 7
li r1 9
sys 3
sys 1
register: .byte 1 120
both: .byte 2 2
'''
[[image]]
name = "asks"
blocks = 1
text = '''
li r3 2
li r2 find
li r4 1
li r5 answer
sys 6
sys 6
sys 7
find: .byte 2 120
answer: .byte 1
'''
[[image]]
name = "makes"
blocks = 1
text = '''
li r3 4
li r2 child
li r4 1
li r5 answer
sys 6
sys 7
child: .byte 1 2 0 3
answer: .byte 1
'''
[[image]]
name = "child"
blocks = 1
text = '''
sys 7
'''
[[image]]
name = "three"
blocks = 1
text = '''
sys 6
sys 6
sys 6
sys 6
sys 7
'''
[[image]]
name = "one"
blocks = 1
text = '''
sys 6
sys 7
'''
[[process]]
name = "named"
machine = 0
image = "named"
links = [{ to = 'switchboard' }, { to = 'manager' }, { to = 'named' }]
[[process]]
name = "makes"
machine = 0
image = "makes"
links = [{ to = 'manager' }, { to = 'named' }]
[[process]]
name = "three"
machine = 2
image = "three"
links = [{ to = 'named' }, { to = 'named', code = 1 }, { to = 'named', reply = true }]
[[process]]
name = "one"
machine = 2
image = "one"
links = [{ to = 'named', reply = true }]
[[process]]
name = "asks"
machine = 2
image = "asks"
links = [{ to = 'switchboard' }, { to = 'named' }]

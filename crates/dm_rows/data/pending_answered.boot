[[machine]]
slots = 2
blocks = 3
[[machine]]
slots = 2
blocks = 2
[[image]]
name = "a"
blocks = 1
text = '''
li r2 far
li r3 4
li r4 1
li r5 answer
sys 6
li r2 near
sys 6
li r2 far
sys 6
li r4 0
sys 6              ; without a link
li r3 1
sys 6              ; nor is this one answered
sys 1
far: .byte 1 1 0 1
near: .byte 1 0 0 1
answer: .byte 1
'''
[[image]]
name = "child"
blocks = 1
text = '''
sys 7
'''
[[process]]
name = "a"
machine = 0
image = "a"
links = [{ to = 'manager' }, { to = 'a', channel = 3 }]
[[process]]
name = "b"
machine = 1
image = "child"

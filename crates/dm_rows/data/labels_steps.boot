[[machine]]
slots = 3
blocks = 3
[[image]]
name = "says"
blocks = 1
text = '''
sys 6              ; to hears, on channel 0
li r1 1
sys 6              ; to other, on channel 0
li r1 2
li r3 1
li r2 stop
sys 6
li r2 kill
sys 6
li r3 2
li r2 move
sys 6
sys 6
li r1 3
sys 6              ; other is to move
sys 1
stop: .byte 2
kill: .byte 4
move: .byte 5 0
'''
[[image]]
name = "hears"
blocks = 1
text = '''
li r1 1
sys 7
li r1 1
sys 7
'''
[[image]]
name = "other"
blocks = 1
text = '''
li r1 2
sys 7              ; channel 1 alone
'''
[[process]]
name = "says"
machine = 0
image = "says"
links = [{ to = 'hears' }, { to = 'other' }, { control = 'hears' }, { control = 'other' }]
[[process]]
name = "hears"
machine = 0
image = "hears"
[[process]]
name = "other"
machine = 0
image = "other"

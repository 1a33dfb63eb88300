[[machine]]
slots = 1
blocks = 2
[[machine]]
slots = 2
blocks = 3
[[machine]]
slots = 1
blocks = 1
[[image]]
name = "reads"
blocks = 2
text = '''
sys 6              ; to one that has moved, so that an update comes while the data move is under way
li r1 1
li r4 200
li r5 300
sys 8              ; two pieces
sys 1
'''
[[image]]
name = "owner"
blocks = 2
text = "sys 7"
[[image]]
name = "moves"
blocks = 1
text = "sys 7"
[[process]]
name = "reads"
machine = 0
image = "reads"
links = [{ to = 'moves' }, { to = 'owner', len = 300, read = true }]
[[process]]
name = "owner"
machine = 1
image = "owner"
[[process]]
name = "moves"
machine = 1
image = "moves"

[[machine]]
slots = 3
blocks = 8
[[image]]
name = "mover"
blocks = 4
text = '''
li r1 32
sys 8              ; no such slot
li r1 4
sys 8              ; an empty one
li r1 0
li r2 2
sys 8              ; a direction above 1
li r2 1
sys 8              ; no right to write
li r1 1
li r2 0
sys 8              ; no right to read
li r1 0
li r5 601
sys 8              ; beyond the area
li r4 1024
li r5 1
sys 8              ; beyond its own memory
li r5 0
sys 8              ; nothing to move
li r4 424
li r5 600
sys 8              ; from the area, in three pieces
li r4 1020
lw r1 r4 0
sys 2
li r1 1
li r2 1
li r3 511
li r5 1
sys 8              ; into it, one byte
li r3 0
li r4 0
li r5 257
sys 8              ; in two pieces
li r1 2
li r2 0
li r5 4
li r4 1000
sys 8              ; over a reply link, its own memory
li r1 3
sys 8              ; its owner has ended
mov r1 r0
sys 2
sys 1
'''
[[image]]
name = "owner"
blocks = 3
text = '''
sys 7
.zero 592
.word 305419896
'''
[[image]]
name = "ends"
blocks = 1
text = '''
sys 1
'''
[[process]]
name = "mover"
machine = 0
image = "mover"
links = [{ to = 'owner', len = 600, read = true }, { to = 'owner', len = 512, write = true }, { to = 'mover', reply = true, base = 4, len = 8, read = true }, { to = 'ends', len = 4, read = true }]
[[process]]
name = "owner"
machine = 0
image = "owner"
[[process]]
name = "ends"
machine = 0
image = "ends"

[[machine]]
slots = 6
blocks = 12
[[machine]]
slots = 6
blocks = 12
[[machine]]
slots = 6
blocks = 12
[[image]]
name = "still"
blocks = 1
text = "sys 7"
[[image]]
name = "killer"
blocks = 1
text = '''
li r1 0
li r2 kill
li r3 1
li r4 0
sys 6
sys 1
kill: .byte 4
'''
[[image]]
name = "writer"
blocks = 1
text = '''
sys 6
sys 6
sys 1'''
[[process]]
name = "guest"
machine = 0
image = "still"
links = []
[[process]]
name = "writer"
machine = 0
image = "writer"
links = [{ to = "guest" }]
[[process]]
name = "killer"
machine = 1
image = "killer"
links = [{ control = "guest" }]

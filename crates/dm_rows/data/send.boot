quantum = 1000
[[machine]]
slots = 2
blocks = 2
[[image]]
name = "a"
blocks = 1
text = '''
li r1 32
sys 6              ; no such slot
li r1 3
sys 6              ; an empty one
li r1 0
li r3 65
sys 6              ; a body too long
li r3 64
li r4 5
sys 6              ; more than four links
li r4 1
li r2 193
sys 6              ; a body beyond the memory
li r2 192
li r5 256
sys 6              ; a list beyond the memory
li r5 above
sys 6
li r5 empty
sys 6
li r4 3
li r5 twice
sys 6              ; a reply link twice
li r1 1
sys 6              ; the carrier
li r1 0
li r3 0
li r4 0
sys 6
li r4 4
li r5 four
li r3 64
sys 6
li r1 1
li r4 2
li r5 general
sys 6
li r4 1
sys 6              ; the carrier is gone
sys 1
above: .byte 32
empty: .byte 3
twice: .byte 2 1 2
four: .byte 0 2 0 0
general: .byte 0 0
'''
[[image]]
name = "b"
blocks = 1
text = '''
sys 7
'''
[[process]]
name = "a"
machine = 0
image = "a"
links = [{ to = 'b', code = 5, channel = 1 }, { to = 'b', reply = true, channel = 2 }, { to = 'a', reply = true, base = 16, len = 8, read = true }]
[[process]]
name = "b"
machine = 0
image = "b"

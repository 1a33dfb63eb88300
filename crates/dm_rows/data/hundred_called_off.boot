[[machine]]
slots = 2
blocks = 2
[[machine]]
slots = 2
blocks = 2
[[image]]
name = "guest"
blocks = 1
text = '''
again:
li r1 1
li r2 buf
li r3 8
sys RECEIVE
jmp again
buf: .zero 8
'''
[[image]]
name = "sender"
blocks = 1
text = '''
li r6 0
li r7 1
li r8 100
again:
li r1 0
li r2 word
li r3 1
li r4 0
sys SEND
add r6 r6 r7
sb r6 r2 0
bne r6 r8 again
sys EXIT
word: .byte 0
'''
[[process]]
name = "guest"
machine = 1
image = "guest"
[[process]]
name = "sender"
machine = 1
image = "sender"
links = [{ to = "guest" }]

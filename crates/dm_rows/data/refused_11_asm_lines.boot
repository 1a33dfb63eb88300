[[machine]]
slots = 1
blocks = 3
[[image]]
name = "a"
blocks = 2
text = '''
send
send 1 2
receive 1 2
make 1 2
move 1 2
copy
drop 1 2
out
exit 1
out 5
out x
send 0 r1 2
make 1 2 3 r4 r4
send -1
send 0 text+x 1
send 0 text 65536
send text text+65535 1
send text nowhere 1
jmp r1
li r1 r2
r1: exit
x: .equ y 1
.equ 5x 1
.equ size x
.equ big 4294967296
.equ size 5
li r1 'ab'
lw r1 r2 size
.equ one
text: .byte 'a' "b"
'''
[[process]]
name = "a"
machine = 0
image = "a"

[[machine]]
slots = 1
blocks = 3
[[image]]
name = "a"
blocks = 2
text = '''
li r8 calls
li r9 behind
li r10 4
again: lw r7 r8 0
out r7
add r8 r8 r10
bltu r8 r9 again
exit
.equ slot 3
text: .ascii "hi!."
calls: send slot ; each call with its operands
send 0 text 2
send r9, text+1, 'a', 4, r5
receive 0xffff
receive r4 text+2 16
make 7 2 1
make r1 31 12 text 4
move 0 1 last text slot
copy slot+1
drop r1
out r15
exit
behind: .word slot
.equ last 0x10
'''
[[process]]
name = "a"
machine = 0
image = "a"

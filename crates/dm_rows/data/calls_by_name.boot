[[machine]]
slots = 1
blocks = 3
[[image]]
name = "a"
blocks = 1
text = '''
li r2 calls
li r3 behind
li r4 4
again: lw r1 r2 0
sys OUT
add r2 r2 r4
bltu r2 r3 again
sys EXIT
calls: sys EXIT ; each call by its name
sys OUT
sys MAKE
sys COPY
sys DROP
sys SEND
sys RECEIVE
sys MOVE
behind:
'''
[[process]]
name = "a"
machine = 0
image = "a"

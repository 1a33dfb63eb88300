[[machine]]
slots = 1
blocks = 3
[[image]]
name = "a"
blocks = 1
text = '''
li r2 text
li r3 behind
li r4 1
li r5 0
again: lb r1 r2 0
sys OUT
add r2 r2 r4
bltu r2 r3 again
sys EXIT
text: .ascii "a,  !~" , ; a comment
.ascii ""
behind:
'''
[[process]]
name = "a"
machine = 0
image = "a"

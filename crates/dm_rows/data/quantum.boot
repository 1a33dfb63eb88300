quantum = 2
[[machine]]
slots = 3
blocks = 3
[[image]]
name = "plain"
blocks = 1
text = '''
again: li r1 1
jmp again
'''
[[image]]
name = "before_a_call"
blocks = 1
text = '''
li r1 7
li r2 8
sys 2
sys 1
'''
[[image]]
name = "before_a_fault"
blocks = 1
text = '''
li r1 7
li r2 8
.word 0
'''
[[process]]
name = "plain"
machine = 0
image = "plain"
[[process]]
name = "call"
machine = 0
image = "before_a_call"
[[process]]
name = "fault"
machine = 0
image = "before_a_fault"

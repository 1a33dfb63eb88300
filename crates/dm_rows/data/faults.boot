[[machine]]
slots = 9
blocks = 9
[[image]]
name = "fetch"
blocks = 1
text = '''
jmp 256
'''
[[image]]
name = "word"
blocks = 1
text = '''
li r2 253
lw r1 r2 0
'''
[[image]]
name = "byte"
blocks = 1
text = '''
li r2 255
lb r1 r2 1
'''
[[image]]
name = "operation"
blocks = 1
text = '''
.byte 99 0 0 0
'''
[[image]]
name = "register"
blocks = 1
text = '''
.byte 3 1 16 0
'''
[[image]]
name = "odd_fetch"
blocks = 1
text = '''
jmp 2
'''
[[image]]
name = "odd_word"
blocks = 1
text = '''
li r2 2
sw r1 r2 0
'''
[[image]]
name = "call"
blocks = 1
text = '''
sys 9
'''
[[image]]
name = "exit"
blocks = 1
text = '''
sys 6
sys 6
sys 1
'''
[[process]]
name = "fetch"
machine = 0
image = "fetch"
[[process]]
name = "word"
machine = 0
image = "word"
[[process]]
name = "byte"
machine = 0
image = "byte"
[[process]]
name = "operation"
machine = 0
image = "operation"
[[process]]
name = "register"
machine = 0
image = "register"
[[process]]
name = "odd_fetch"
machine = 0
image = "odd_fetch"
[[process]]
name = "odd_word"
machine = 0
image = "odd_word"
[[process]]
name = "call"
machine = 0
image = "call"
[[process]]
name = "exit"
machine = 0
image = "exit"
links = [{ to = 'exit' }]

[[machine]]
slots = 1
blocks = 1
[[image]]
name = "a"
blocks = 1
text = '''
li r1 1
lw r2 r1 0         ; not aligned, which is fault 3; and call 3 would make a link
'''
[[process]]
name = "a"
machine = 0
image = "a"

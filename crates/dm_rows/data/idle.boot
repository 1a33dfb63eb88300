[[machine]]
slots = 5
blocks = 5
[[image]]
name = "stops"
blocks = 1
text = '''
li r2 two
li r3 1
sys 6
sys 7
two: .byte 2
'''
[[image]]
name = "waits"
blocks = 1
text = '''
li r1 2
sys 7
'''
[[image]]
name = "moves"
blocks = 1
text = '''
li r5 4
sys 8
'''
[[image]]
name = "writes"
blocks = 1
text = '''
li r2 1
li r5 4
sys 8
'''
[[image]]
name = "sends"
blocks = 1
text = '''
sys 6
sys 7
'''
[[process]]
name = "stopped"
machine = 0
image = "stops"
links = [{ control = 'stopped' }]
[[process]]
name = "waits"
machine = 0
image = "waits"
[[process]]
name = "moves"
machine = 0
image = "moves"
links = [{ to = 'far', len = 4, read = true }]
[[process]]
name = "writes"
machine = 0
image = "writes"
links = [{ to = 'far', len = 4, write = true }]
[[process]]
name = "sends"
machine = 0
image = "sends"
links = [{ to = 'waits' }]
[[machine]]
slots = 1
blocks = 1
[[process]]
name = "far"
machine = 1
image = "waits"

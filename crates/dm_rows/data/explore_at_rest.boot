[[machine]]
slots = 3
blocks = 3
[[image]]
name = "waits"
blocks = 1
text = "sys 7"
[[image]]
name = "stops"
blocks = 1
text = '''
li r2 stop
li r3 1
sys 6
sys 1
stop: .byte 2
'''
[[process]]
name = "stopped"
machine = 0
image = "waits"
[[process]]
name = "stops"
machine = 0
image = "stops"
links = [{ control = 'stopped' }]
[[process]]
name = "waits"
machine = 0
image = "waits"

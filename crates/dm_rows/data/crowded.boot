[[machine]]
slots = 6
blocks = 6
[[image]]
name = "sends"
blocks = 1
text = '''
sys 6
sys 6
sys 6
sys 1
'''
[[image]]
name = "waits"
blocks = 1
text = '''
sys 7
'''
[[process]]
name = "waits"
machine = 0
image = "waits"
[[process]]
name = "s0"
machine = 0
image = "sends"
links = [{ to = 'waits' }]
[[process]]
name = "s1"
machine = 0
image = "sends"
links = [{ to = 'waits' }]
[[process]]
name = "s2"
machine = 0
image = "sends"
links = [{ to = 'waits' }]
[[process]]
name = "s3"
machine = 0
image = "sends"
links = [{ to = 'waits' }]
[[process]]
name = "s4"
machine = 0
image = "sends"
links = [{ to = 'waits' }]

[[machine]]
slots = 1
blocks = 1
[[machine]]
slots = 1
blocks = 1
[[image]]
name = "says"
blocks = 1
text = '''
sys 6
sys 1
'''
[[image]]
name = "hears"
blocks = 1
text = '''
li r1 1
sys 7
sys 1
'''
[[process]]
name = "says"
machine = 0
image = "says"
links = [{ to = 'hears' }]
[[process]]
name = "hears"
machine = 1
image = "hears"

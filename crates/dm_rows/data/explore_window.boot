[[machine]]
slots = 1
blocks = 9
[[machine]]
slots = 1
blocks = 9
[[image]]
name = "owner"
blocks = 9
text = "sys 7"
[[image]]
name = "reads"
blocks = 9
text = '''
li r5 2304
sys 8              ; nine pieces, and their requests are the only messages of machine 1
sys 1
'''
[[process]]
name = "owner"
machine = 0
image = "owner"
[[process]]
name = "reads"
machine = 1
image = "reads"
links = [{ to = 'owner', len = 2304, read = true }]

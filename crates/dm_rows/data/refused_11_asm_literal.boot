machine = [{ slots = 1, blocks = 1 }]
process = []

[[image]]
name = 'a'
blocks = 1
text = """
	sys 1
"""

[[image]]
name = 'b'
blocks = 1
text = '''
	sys 1 ; "quoted"
	li r1, 0x
	hop r1'''

machine = [{ slots = 1, blocks = 1 }]

[[image]]
name = 'a'
blocks = 1
text = """
\tsys 1
	sys 256
	sys x
"""

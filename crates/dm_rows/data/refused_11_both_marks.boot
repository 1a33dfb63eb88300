[[machine]]
slots = 1
blocks = 1
[[image]]
name = "a"
blocks = 1
text = '''
sys 1
hop
'''
[[image]]
name = "b"
blocks = 1
text = """
sys 1
hop
"""

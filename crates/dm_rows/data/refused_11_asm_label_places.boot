# A label that three lines have, a label with nothing behind it, a word behind a label that is none, and one behind no label.

[[machine]]
slots = 4
blocks = 4

[[image]]
name = "a"
blocks = 1
text = """
        sys OUT
again:  sys OUT
other:
again:
        sys OUT
again:  hop r1
other:  li r1 1
again:  sys OUT
Again:  hop r1
"""

# Lines of later images are told too: of b, whose line 3 is the first, of d, whose text is on one line, and of e.

[[machine]]
slots = 4
blocks = 4

[[image]]
name = "a"
blocks = 1
text = """
        sys EXIT
"""

[[image]]
name = "b"
blocks = 1
text = """
start:  li r1 1
        sys OUT
        hop r1
start:  sys EXIT
"""

[[image]]
name = "c"
blocks = 1
text = """
start:  sys EXIT
"""

[[image]]
name = "d"
blocks = 1
text = "li r16 1"

[[image]]
name = "e"
blocks = 1
text = """
        jmp start
        sys EXIT
        lw r1 r2 -4
"""

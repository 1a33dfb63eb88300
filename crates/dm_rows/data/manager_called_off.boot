[[machine]]
slots = 0
blocks = 0
[[machine]]
slots = 1
blocks = 1
[[image]]
name = "client"
blocks = 1
text = """
again: sys 6    ; SEND to the manager, again and again
jmp again
"""
[[process]]
name = "client"
machine = 1
image = "client"
links = [{ to = "manager" }]

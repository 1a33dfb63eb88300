[[machine]]
slots = 2
blocks = 2
[[machine]]
slots = 1
blocks = 1
[[machine]]
slots = 1
blocks = 1
[[image]]
name = "asks"
blocks = 1
text = """
again: li r1 0  ; SEND to the switchboard, to the manager, and to the third, again and again
sys 6
li r1 1
sys 6
li r1 2
sys 6
jmp again
"""
[[image]]
name = "waits"
blocks = 1
text = "sys 7"
[[process]]
name = "third"
machine = 0
image = "waits"
links = []
[[process]]
name = "asks"
machine = 1
image = "asks"
links = [{ to = "switchboard" }, { to = "manager" }, { to = "third" }]

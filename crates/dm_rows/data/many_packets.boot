# One process sends to another machine, which acknowledges nothing: what goes out goes again with each tick.
[[machine]]
slots = 1
blocks = 1
[[machine]]
slots = 1
blocks = 1
[[image]]
name = "sends"
blocks = 1
text = "li r2 t\nli r3 1\nnext: sys 6\njmp next\nt: .byte 49"
[[image]]
name = "waits"
blocks = 1
text = "sys 7"
[[process]]
name = "a"
machine = 0
image = "sends"
links = [{ to = "b" }]
[[process]]
name = "b"
machine = 1
image = "waits"

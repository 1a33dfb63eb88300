[[machine]]
slots = 1
blocks = 256
[[image]]
name = "a"
blocks = 256
text = ".zero 65532\n9x: li r1 1\nli r1 1"

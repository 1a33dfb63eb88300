[[machine]]
slots = 1
blocks = 1
[[image]]
name = "edges"
blocks = 1
text = """
li r0 7
sys 2                  ; OUT: r0 is 0 then
mov r1 r0
sys 2
li r0 7
li r1 0
li r2 254              ; a body and a list that end with the memory
li r3 2
li r4 1
li r5 255
sys 6
mov r1 r0
sys 2                  ; SEND: r0 is 0 then
li r1 0
sys 4
sys 2                  ; COPY: r1 is the new slot
li r2 31
li r3 7                ; a reply link, to read and to write, whose area ends with the memory
li r4 156
li r5 100
sys 3
li r1 1
li r2 192              ; a buffer that ends with the memory
li r3 64
sys 7
mov r1 r5
sys 2                  ; the slot of the link that came
jmp 252                ; the last word of the memory: RECEIVE
.zero 140
sys 7
"""
[[process]]
name = "a"
machine = 0
image = "edges"
links = [
    { to = "a", code = 3 }, { to = "a" }, { to = "a" }, { to = "a" },
    { to = "a" }, { to = "a" }, { to = "a" }, { to = "a", code = 5, channel = 2 },
]

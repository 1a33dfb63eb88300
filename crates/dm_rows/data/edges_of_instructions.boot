[[machine]]
slots = 1
blocks = 5
[[image]]
name = "edges"
blocks = 5
text = """
start: bne r14 r0 second
li r14 1
li r6 65535
lih r6 65535           ; what lih keeps is the lower half alone
lih r6 1
mov r1 r6
sys 2
li r7 5
li r8 5
li r1 0
bltu r7 r8 wrong       ; equal isn't below
li r1 1
wrong: sys 2
.byte 3 9 7 255        ; mov r9 r7: a field that isn't used
mov r1 r9
.byte 20 255 255 2     ; sys 2
.byte 16 255 1 252     ; jmp 508
.zero 440
beq r0 r0 start        ; -128 words
second: li r1 2
sys 2
beq r0 r0 far          ; 127 words
.zero 508
far: li r1 3
sys 2
li r2 1
jmp 1276               ; the last word of the memory
.zero 228
sys 2                  ; behind it is nothing: the process ends
"""
[[process]]
name = "a"
machine = 0
image = "edges"

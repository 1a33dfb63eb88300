# each line of a program that is refused, and where the file has it
[[machine]]
slots = 1
blocks = 1

[[image]]
name = "a"
blocks = 1
text = """
top:    li r1 -5
        hop r1
9x:     sys 1
top:    mov r1 5            ; the label is another line's
        lw r1 r2 -4
        add r1 r2
        beq r1 r2 far
        beq r1 r2 9
        beq r1 r2 top
        jmp nowhere
        sys 256
        .byte 1 x 300
        .byte 1 300
        .zero -1
top:
        .word 4294967296
        li r16 70000
        sys 1
        .zero 512
far:    lih r1 far
        .zero 65536
        .byte 1
        sys 1
"""

[[process]]
name = "p"
image = "a"
machine = 0

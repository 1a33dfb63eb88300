[[machine]]
slots = 1
blocks = 3
[[image]]
name = "a"
blocks = 1
text = '''
; a comment, then blanks, tabs, commas and numbers of each form
 li r1, 007
	li	r2	0xFf
li r3 first ; a label as a value
first: sys 2
mov r1 r3
sys 2
.zero 3
.byte 1 0x02,3
second:
third: .word third
.word 4294967295
.byte 255
'''
[[process]]
name = "a"
machine = 0
image = "a"

[[machine]]
slots = 1
blocks = 3
[[image]]
name = "a"
blocks = 1
text = '''
.ascii
.ascii text
.ascii x "text"
.ascii "
.ascii "a text
.ascii "one; two"
.ascii "text" 1
.ascii "te"xt"
.ascii "	"
.ascii "é"
.ascii"text"
.ascii "~ "
'''
[[process]]
name = "a"
machine = 0
image = "a"

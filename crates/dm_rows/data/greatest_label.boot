machine = [{ slots = 1, blocks = 256 }]
image = [{ name = 'a', blocks = 256, text = '''li r1 x
sys 2
.zero 65527
x:''' }]
process = [{ name = 'p', machine = 0, image = 'a' }]

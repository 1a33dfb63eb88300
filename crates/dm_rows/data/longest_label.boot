machine = [{ slots = 1, blocks = 1 }]
image = [{ name = 'a', blocks = 1, text = '''jmp abcdefghijklmnop
abcdefghijklmnop: sys 1''' }]

machine = [{ slots = 1, blocks = 1 }]
image = [{ name = 'a', blocks = 1, text = '''jmp 257''' }]
process = [{ name = 'p', machine = 0, image = 'a' }]

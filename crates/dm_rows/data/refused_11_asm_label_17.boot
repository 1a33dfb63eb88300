machine = [{ slots = 1, blocks = 1 }]
image = [{ name = 'a', blocks = 1, text = '''sys 1
abcdefghijklmnopq: sys 1''' }]

machine = [{ slots = 1, blocks = 1 }]
image = [{ name = 'a', blocks = 1, text = '''x: sys 1
x: li r1''' }]

machine = [{ slots = 1, blocks = 1 }, { slots = 1, blocks = 1 }]
image = [{ name = 'a', blocks = 1, text = 'again: jmp again' }]
process = [{ name = 'a', machine = 1, image = 'a' }]

machine = [{ slots = 64, blocks = 4097 }]

machine = [{ slots = 0, blocks = 4097 }]



machine = [{ slots = 1, blocks = 1 } { slots = 1, blocks = 1 }]

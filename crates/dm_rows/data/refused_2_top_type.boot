machine = 1

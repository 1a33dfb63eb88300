

quantum = 1 numbers = 2

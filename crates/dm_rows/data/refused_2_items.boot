machine = [1]

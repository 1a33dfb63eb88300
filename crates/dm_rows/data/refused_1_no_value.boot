# a number is missing

quantum
machine = []

zeta = 1
alpha = 2

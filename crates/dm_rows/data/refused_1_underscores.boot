

numbers = 1__0

machine = [{ slots = 1, blocks = 1 }, { slots = 2, blocks = 2 }]
image = [{ name = 'a', blocks = 1, text = 'sys 1' }, { name = 'b', blocks = 2, text = 'sys 1' }]
process = [{ name = 'p', machine = 0, image = 'a', links = [{ to = 'switchboard', base = 5 }] }]

format = 2
numbers = 1048576
quantum = 1000
machine = [
{ slots = 64, blocks = 4096 },
{ slots = 64, blocks = 4096 },
{ slots = 64, blocks = 4096 },
{ slots = 64, blocks = 4096 },
{ slots = 64, blocks = 4096 },
{ slots = 64, blocks = 4096 },
{ slots = 64, blocks = 4096 },
{ slots = 64, blocks = 4096 },
{ slots = 64, blocks = 4096 },
{ slots = 64, blocks = 4096 },
{ slots = 64, blocks = 4096 },
{ slots = 64, blocks = 4096 },
{ slots = 64, blocks = 4096 },
{ slots = 64, blocks = 4096 },
{ slots = 64, blocks = 4096 },
{ slots = 64, blocks = 4096 }
]
image = [{ name = 'a_name_of_16_xyz', blocks = 256, text = '''
x: .zero 65536
y:''' }]
process = [{ name = 'p', machine = 15, image = 'a_name_of_16_xyz', links = [{ to = 'p', code = 4294967295, channel = 31, base = 65536 }, { to = 'p', len = 65536, read = true }, { to = 'manager', channel = 31, reply = true }] }]

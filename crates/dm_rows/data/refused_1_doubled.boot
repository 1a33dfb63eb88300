quantum = 1
name = "a"
name = """
b
c
"""
machine = []

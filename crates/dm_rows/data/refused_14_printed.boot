machine = [{ slots = 1, blocks = 1 }]
image = [{ name = "a", blocks = 1, text = "sys 1" }]
process = [{ name = "a ~\u007f\u001f", machine = 0, image = "a" }]

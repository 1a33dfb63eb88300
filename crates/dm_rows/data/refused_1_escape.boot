

[[image]] # one
name = "a"
text = "sys \q"

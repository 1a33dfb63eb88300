[[machine]]
slots = 64
blocks = 64
[[machine]]
slots = 6
blocks = 6
[[image]]
name = "a"
blocks = 1
text = "sys 1"
[[process]]
name = "p0"
machine = 0
image = "a"
links = [{ to = "p64", code = 0 }]
[[process]]
name = "p1"
machine = 0
image = "a"
links = [{ to = "p31", code = 1 }]
[[process]]
name = "p2"
machine = 0
image = "a"
links = [{ to = "p68", code = 2 }]
[[process]]
name = "p3"
machine = 0
image = "a"
links = [{ to = "p35", code = 3 }]
[[process]]
name = "p4"
machine = 0
image = "a"
links = [{ to = "p2", code = 4 }]
[[process]]
name = "p5"
machine = 0
image = "a"
links = [{ to = "p39", code = 5 }]
[[process]]
name = "p6"
machine = 0
image = "a"
links = [{ to = "p6", code = 6 }]
[[process]]
name = "p7"
machine = 0
image = "a"
links = [{ to = "p43", code = 7 }]
[[process]]
name = "p8"
machine = 0
image = "a"
links = [{ to = "p10", code = 8 }]
[[process]]
name = "p9"
machine = 0
image = "a"
links = [{ to = "p47", code = 9 }]
[[process]]
name = "p10"
machine = 0
image = "a"
links = [{ to = "p14", code = 10 }]
[[process]]
name = "p11"
machine = 0
image = "a"
links = [{ to = "p51", code = 11 }]
[[process]]
name = "p12"
machine = 0
image = "a"
links = [{ to = "p18", code = 12 }]
[[process]]
name = "p13"
machine = 0
image = "a"
links = [{ to = "p55", code = 13 }]
[[process]]
name = "p14"
machine = 0
image = "a"
links = [{ to = "p22", code = 14 }]
[[process]]
name = "p15"
machine = 0
image = "a"
links = [{ to = "p59", code = 15 }]
[[process]]
name = "p16"
machine = 0
image = "a"
links = [{ to = "p26", code = 16 }]
[[process]]
name = "p17"
machine = 0
image = "a"
links = [{ to = "p63", code = 17 }]
[[process]]
name = "p18"
machine = 0
image = "a"
links = [{ to = "p30", code = 18 }]
[[process]]
name = "p19"
machine = 0
image = "a"
links = [{ to = "p67", code = 19 }]
[[process]]
name = "p20"
machine = 0
image = "a"
links = [{ to = "p34", code = 20 }]
[[process]]
name = "p21"
machine = 0
image = "a"
links = [{ to = "p1", code = 21 }]
[[process]]
name = "p22"
machine = 0
image = "a"
links = [{ to = "p38", code = 22 }]
[[process]]
name = "p23"
machine = 0
image = "a"
links = [{ to = "p5", code = 23 }]
[[process]]
name = "p24"
machine = 0
image = "a"
links = [{ to = "p42", code = 24 }]
[[process]]
name = "p25"
machine = 0
image = "a"
links = [{ to = "p9", code = 25 }]
[[process]]
name = "p26"
machine = 0
image = "a"
links = [{ to = "p46", code = 26 }]
[[process]]
name = "p27"
machine = 0
image = "a"
links = [{ to = "p13", code = 27 }]
[[process]]
name = "p28"
machine = 0
image = "a"
links = [{ to = "p50", code = 28 }]
[[process]]
name = "p29"
machine = 0
image = "a"
links = [{ to = "p17", code = 29 }]
[[process]]
name = "p30"
machine = 0
image = "a"
links = [{ to = "p54", code = 30 }]
[[process]]
name = "p31"
machine = 0
image = "a"
links = [{ to = "p21", code = 31 }]
[[process]]
name = "p32"
machine = 0
image = "a"
links = [{ to = "p58", code = 32 }]
[[process]]
name = "p33"
machine = 0
image = "a"
links = [{ to = "p25", code = 33 }]
[[process]]
name = "p34"
machine = 0
image = "a"
links = [{ to = "p62", code = 34 }]
[[process]]
name = "p35"
machine = 0
image = "a"
links = [{ to = "p29", code = 35 }]
[[process]]
name = "p36"
machine = 0
image = "a"
links = [{ to = "p66", code = 36 }]
[[process]]
name = "p37"
machine = 0
image = "a"
links = [{ to = "p33", code = 37 }]
[[process]]
name = "p38"
machine = 0
image = "a"
links = [{ to = "p0", code = 38 }]
[[process]]
name = "p39"
machine = 0
image = "a"
links = [{ to = "p37", code = 39 }]
[[process]]
name = "p40"
machine = 0
image = "a"
links = [{ to = "p4", code = 40 }]
[[process]]
name = "p41"
machine = 0
image = "a"
links = [{ to = "p41", code = 41 }]
[[process]]
name = "p42"
machine = 0
image = "a"
links = [{ to = "p8", code = 42 }]
[[process]]
name = "p43"
machine = 0
image = "a"
links = [{ to = "p45", code = 43 }]
[[process]]
name = "p44"
machine = 0
image = "a"
links = [{ to = "p12", code = 44 }]
[[process]]
name = "p45"
machine = 0
image = "a"
links = [{ to = "p49", code = 45 }]
[[process]]
name = "p46"
machine = 0
image = "a"
links = [{ to = "p16", code = 46 }]
[[process]]
name = "p47"
machine = 0
image = "a"
links = [{ to = "p53", code = 47 }]
[[process]]
name = "p48"
machine = 0
image = "a"
links = [{ to = "p20", code = 48 }]
[[process]]
name = "p49"
machine = 0
image = "a"
links = [{ to = "p57", code = 49 }]
[[process]]
name = "p50"
machine = 0
image = "a"
links = [{ to = "p24", code = 50 }]
[[process]]
name = "p51"
machine = 0
image = "a"
links = [{ to = "p61", code = 51 }]
[[process]]
name = "p52"
machine = 0
image = "a"
links = [{ to = "p28", code = 52 }]
[[process]]
name = "p53"
machine = 0
image = "a"
links = [{ to = "p65", code = 53 }]
[[process]]
name = "p54"
machine = 0
image = "a"
links = [{ to = "p32", code = 54 }]
[[process]]
name = "p55"
machine = 0
image = "a"
links = [{ to = "p69", code = 55 }]
[[process]]
name = "p56"
machine = 0
image = "a"
links = [{ to = "p36", code = 56 }]
[[process]]
name = "p57"
machine = 0
image = "a"
links = [{ to = "p3", code = 57 }]
[[process]]
name = "p58"
machine = 0
image = "a"
links = [{ to = "p40", code = 58 }]
[[process]]
name = "p59"
machine = 0
image = "a"
links = [{ to = "p7", code = 59 }]
[[process]]
name = "p60"
machine = 0
image = "a"
links = [{ to = "p44", code = 60 }]
[[process]]
name = "p61"
machine = 0
image = "a"
links = [{ to = "p11", code = 61 }]
[[process]]
name = "p62"
machine = 0
image = "a"
links = [{ to = "p48", code = 62 }]
[[process]]
name = "p63"
machine = 0
image = "a"
links = [{ to = "p15", code = 63 }]
[[process]]
name = "p64"
machine = 1
image = "a"
links = [{ to = "p52", code = 64 }]
[[process]]
name = "p65"
machine = 1
image = "a"
links = [{ to = "p19", code = 65 }]
[[process]]
name = "p66"
machine = 1
image = "a"
links = [{ to = "p56", code = 66 }]
[[process]]
name = "p67"
machine = 1
image = "a"
links = [{ to = "p23", code = 67 }]
[[process]]
name = "p68"
machine = 1
image = "a"
links = [{ to = "p60", code = 68 }]
[[process]]
name = "p69"
machine = 1
image = "a"
links = [{ to = "p27", code = 69 }]

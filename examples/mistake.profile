; One line is wrong: a rate in bits per second is above the most that a line may have.

[port 0]
line rate = 100000000000
subports = 1

[subport profile 0]
tb rate = 12500000
tb size = 20000
tc 0-12 rate = 12500000
tc period = 10

[pipe profile 0]
tb rate = 12500000
tb size = 20000
tc 0-12 rate = 12500000
tc period = 10

[subport 0 0]
profile = 0
pipes = 1
queue sizes = 64 64 64 64 64 64 64 64 64 64 64 64 64
pipe 0 = 0

[rule 0]
port = 0
subport = 0
pipe = 0
code = dscp

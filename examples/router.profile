; A router with two lines: 100 Mbit/s towards 10.0.0.128/25 and 20 Mbit/s towards all else.
; A line is one subscriber here. Classes are those of the default table, but for one code point.

[port 0]
line rate = 12500000            ; 100 Mbit/s
subports = 1
drain ms = 50

[port 1]
line rate = 2500000             ; 20 Mbit/s
subports = 1
burst = 8
drain ms = 50

[subport profile 0]             ; as fast as either line goes
tb rate = 12500000
tb size = 20000
tc 0-12 rate = 12500000
tc period = 10

[pipe profile 0]
tb rate = 12500000
tb size = 20000
tc 0 rate = 625000              ; at most 5 Mbit/s of voice: 6,250 bytes each 10 ms
tc 1-12 rate = 12500000
tc period = 10
tc 12 wrr weights = 8 4 2 1

[subport 0 0]
profile = 0
pipes = 1
queue sizes = 32 32 32 32 64 64 64 64 64 64 64 64 128
pipe 0 = 0

[subport 1 0]
profile = 0
pipes = 1
queue sizes = 32 32 32 32 64 64 64 64 64 64 64 64 128
pipe 0 = 0

[codes dscp]
44 = 0 0 green                  ; voice admit (RFC 5865) goes with voice

[rule 10]
proto = ipv4
dst = 10.0.0.128/25
port = 0
subport = 0
pipe = 0
code = dscp

[rule 20]                       ; whatever no rule before this took
port = 1
subport = 0
pipe = 0
code = dscp

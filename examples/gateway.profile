; A broadband gateway: a line of 1 Gbit/s towards 256 subscribers, of which 400 Mbit/s are bought.
; Rates are in bytes per second: 1 Mbit/s is 125000. Subscriber N has the address x.y.z.N, its pipe is N.

[port 0]
line rate = 125000000           ; 1 Gbit/s, so a byte time is 8 ns
subports = 1
mtu = 1522                      ; a full frame with one VLAN tag
burst = 32
quantum = 62500                 ; look again after half a millisecond at the latest
drain ms = 100                  ; after the last packet, for what still waits

[subport profile 0]             ; all subscribers together
tb rate = 50000000              ; 400 Mbit/s
tb size = 100000
tc 0-12 rate = 50000000         ; any class may have all of it
tc period = 10

[pipe profile 0]                ; the plan "20": 20 Mbit/s
tb rate = 2500000
tb size = 12000                 ; eight full frames at once
tc 0 rate = 250000              ; voice: 2 Mbit/s and no more, for it goes before all else
tc 1-11 rate = 2500000
tc 12 rate = 2500000
tc period = 40                  ; 10,000 bytes of voice each 40 ms: a full frame must fit
tc 12 wrr weights = 4 2 2 1     ; web, other, unused, lower effort
tc 12 oversubscription weight = 1

[pipe profile 1]                ; the plan "50": 50 Mbit/s, and twice the share where it gets tight
tb rate = 6250000
tb size = 30000
tc 0 rate = 250000
tc 1-11 rate = 6250000
tc 12 rate = 6250000
tc period = 40
tc 12 wrr weights = 4 2 2 1
tc 12 oversubscription weight = 2

[subport 0 0]
profile = 0
pipes = 256
queue sizes = 16 16 16 16 32 32 32 32 32 32 32 32 32
pipe 0-127 = 0                  ; the first half has the plan "20"
pipe 128-255 = 1                ; the other half has the plan "50"
oversubscription = yes          ; 128 times 20 and 128 times 50 Mbit/s are more than 400

[rule 0]                        ; the packet's last address byte is the subscriber, its code point the class
proto = ipv4
dst = 10.0.0.0/24
port = 0
subport = 0
pipe = host
code = dscp

; The gateway of gateway.profile, which also polices what three customers bought: what is above it never comes to a queue.
; Rates are in bytes per second: 1 Mbit/s is 125000. A meter counts a packet without its Ethernet header and VLAN tags.

[port 0]
line rate = 125000000           ; 1 Gbit/s, so a byte time is 8 ns
subports = 1
mtu = 1522                      ; a full frame with one VLAN tag
burst = 32
quantum = 62500                 ; look again after half a millisecond at the latest
drain ms = 10                   ; after the last packet; what waits longer is left

[subport profile 0]             ; all subscribers together
tb rate = 50000000              ; 400 Mbit/s
tb size = 100000
tc 0-12 rate = 50000000         ; any class may have all of it
tc period = 10

[pipe profile 0]                ; the plan "20": 20 Mbit/s
tb rate = 2500000
tb size = 12000                 ; eight full frames at once
tc 0 rate = 250000              ; voice: 2 Mbit/s and no more, for it goes before all else
tc 1-11 rate = 2500000
tc 12 rate = 2500000
tc period = 40
tc 12 wrr weights = 4 2 2 1     ; web, other, unused, lower effort
tc 12 oversubscription weight = 1

[pipe profile 1]                ; the plan "50": 50 Mbit/s, and twice the share where it gets tight
tb rate = 6250000
tb size = 30000
tc 0 rate = 250000
tc 1-11 rate = 6250000
tc 12 rate = 6250000
tc period = 40
tc 12 wrr weights = 4 2 2 1
tc 12 oversubscription weight = 2

[subport 0 0]
profile = 0
pipes = 256
queue sizes = 16 16 16 16 32 32 32 32 32 32 32 32 32
pipe 0-127 = 0                  ; the first half has the plan "20"
pipe 128-255 = 1                ; the other half has the plan "50"
oversubscription = yes

[codes dscp]
8 = 12 3 yellow                 ; lower effort: as by default, but yellow before any meter

[meter exchange]                ; a small firm's telephone exchange: 2 Mbit/s of voice
kind = srtcm                    ; RFC 2697: one rate, and a burst above it
cir rate = 250000
cbs = 4000                      ; twenty packets of 200 bytes at once are green
ebs = 6000                      ; thirty more, once in a while, are yellow
green = pass                    ; these three are the defaults
yellow = pass
red = drop

[meter tower]                   ; an office tower of 32 subscribers: 40 Mbit/s, and 20 more that it pays by use
kind = rfc4115                  ; RFC 4115: a committed rate and an excess rate, each with a burst of its own
mode = blind                    ; the default: each packet counts as green before
cir rate = 5000000
eir rate = 2500000
cbs = 15000                     ; ten full packets at once
ebs = 15000

[meter reseller]                ; half of the subscribers belong to a reseller, who bought 100 Mbit/s and peaks of 200;
                                ; a meter knows no classes, so above the peak their video is dropped as well
kind = trtcm                    ; RFC 2698: a committed rate within a peak rate
mode = aware                    ; no packet gets better than it comes, so lower effort takes no committed tokens
cir rate = 12500000
pir rate = 25000000
cbs = 30000
pbs = 60000

[rule 0]                        ; the firm's exchange; rules are tried by number, so the narrow ones come first
proto = ipv4
dst = 10.0.0.13/32
port = 0
subport = 0
pipe = host
code = dscp
meter = exchange

[rule 1]                        ; the tower: 10.0.0.32 to 10.0.0.63
proto = ipv4
dst = 10.0.0.32/27
port = 0
subport = 0
pipe = host
code = dscp
meter = tower

[rule 2]                        ; the reseller: 10.0.0.128 to 10.0.0.255
proto = ipv4
dst = 10.0.0.128/25
port = 0
subport = 0
pipe = host
code = dscp
meter = reseller

[rule 3]                        ; all others, whom only the scheduler slows down
proto = ipv4
dst = 10.0.0.0/24
port = 0
subport = 0
pipe = host
code = dscp

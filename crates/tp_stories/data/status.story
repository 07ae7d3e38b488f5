# The line that status prints of a device, and what it refuses.

story kept
# One node, whose letter was printed and confirmed: the journal has room for 105 entries. Looking changes nothing.
bring kept/one.dev device
keep device
tpnet status device
tpnet status device --json
# Nobody waits between two looks here.
tpnet status device --every 1
tpnet status --json --every 1 device
tpnet status --every=4294967295 device
stay
# Nine letters that nobody has confirmed, in a journal with room for 215 entries; a checkpoint was begun.
bring kept/two.dev device
tpnet status device
# A journal with room for one entry is full, and then it is emptied.
bring kept/sixteen.dev device
cut device 166620
tpnet status device
tpnet compact device
tpnet status device

story two_ports
# A node hands on what port 0 gets to port 1. First one byte of two is taken, and put out; then both; then port 1's are confirmed, and it gets
# one that no node takes. The cut takes 20724 bytes, a gate and a front 14, and 576 are kept back: there is room for 1381 entries.
text net.txt node a 4\nport from\nport to\nwire a.0 from\nwire a.3 to\n
image a.img 11 24 F2 54 41 F7 11 24 F2 53 41 FB 60 02
text in ab
text more z
tpnet format device net.txt . 65536
tpnet status device
tpnet run device --turns 3 --workers 1 --in in
tpnet status device
tpnet status device --json
tpnet run device --turns 5 --workers 1 --in in
tpnet status device
tpnet run device --turns 0 --port 1
tpnet run device --turns 0 --port 1 --in more
tpnet status device

story watched
# Another process runs the device, and has gone on behind the first look: by how much all grew in a second is told, two seconds behind that look, and
# then that nothing grew.
text net.txt node a 4\nport from\nport to\nwire a.0 from\nwire a.3 to\n
image a.img 11 24 F2 54 41 F7 11 24 F2 53 41 FB 60 02
text in ab
tpnet format device net.txt . 65536
copy device later
tpnet run later --turns 3 --workers 1 --in in
watched 2 later
tpnet status device --every 2
watched 1
tpnet status device --every 1 --json
watched
tpnet status device --every 1

story halted
# One of two nodes has halted.
text net.txt node a 4\nnode b 4\nport h\nwire a.0 h\n
image a.img
image b.img 22 F2
tpnet format device net.txt . 24576
tpnet run device --turns 3 --workers 1 --quantum 16
tpnet status device
tpnet status device --json
# Four have, each for a reason of its own; a checkpoint says the same of them.
text net.txt node a 4\nnode b 4\nnode c 4\nnode d 4\nport h\n
image a.img 45 30
image c.img 20 20 20 20 20 20 20 20 20 20 20 20 20 20 20 20 20 40
image d.img 24 F2 54 41 24 F8 11 24 F2 54 41 F7
tpnet format device net.txt . 40000
tpnet run device --turns 5 --workers 1
tpnet status device
tpnet compact device
tpnet status device
tpnet status --json device

story refused
# A damaged device, one without an open area, one that is none, and one that isn't there.
bring kept/one.dev device
set device 10 01
keep device
tpnet status device
tpnet status device --every 1
tpnet status device --json
tpnet status device --explain
stay
bring kept/one.dev device
set device 512 00
tpnet status device
set device 0 55
tpnet status device
tpnet status nowhere
there nowhere
folder place
tpnet status place

story words
# Words that are refused before any file is opened.
bring kept/one.dev device
tpnet status 2>err
starts err error: 
tpnet status device device 2>err
starts err error: 
tpnet status device --every 2>err
starts err error: 
tpnet status device --every 1 --every 1 2>err
starts err error: 
tpnet status device --xml 2>err
starts err error: 
tpnet status device --every 0
tpnet status device --every 01
tpnet status device --every 4294967296
tpnet status device --every -1 2>err
starts err error: 
tpnet status --help >out
has out \n  running yes     another tpnet
has out \n  Busy          another
has out --every <S>

# What compact makes of a device, prints and refuses.

story full
# A journal with room for four entries is full, and what was shown can not be confirmed. Once its device is compacted, it can. A
# device that needs no compacting is compacted all the same. The file keeps its length.
text net.txt node a 4\nport h\nwire a.0 h\n
image a.img
tpnet format device net.txt . 13130
length device
tpnet run device --turns 6 --workers 1 --quantum 16 --every 4294967295
tpnet run device --turns=0
tpnet compact device
tpnet show device
tpnet run device --turns=0
tpnet compact device
tpnet compact device
tpnet run device --turns=0
length device

story wedged
# A node puts out A for ever, beside one that loops; the areas have room for 13000 entries. The port is full after 4096 rounds of
# three turns and three entries, and only then a snapshot begins. The byte on the port's line keeps it from being whole, and the other
# node fills the journal. Once the device is compacted, what the port holds is confirmed, and the network goes on: the byte on the line
# comes in the first round, and one more in each. Each round but the first makes three entries: the byte as the host takes it, a run of
# the other node, and the Ack of the byte before with the next run as one turn; in the first no Ack has come.
text net.txt node a 4\nnode b 4\nport h\nwire a.0 h\n
image a.img 27 2F 2F 2F 2F 2F 6F 40 24 41 FE 60 03
image b.img 60 0E
fill full 4096 41
tpnet format device net.txt . 433670
tpnet run device --turns=15000 --workers=1 --quantum=16 --every=12300 >out
equal out full
tpnet run device --turns=0 >out
equal out full
tpnet compact device
tpnet run device --turns=0 >out
equal out full
tpnet run device --turns=300 --workers=1 --quantum=16

story refused
# A device that is refused stays as it is.
text net.txt node a 4\nport h\nwire a.0 h\n
image a.img
tpnet format device net.txt . 16384
copy device fresh
copy fresh device
set device 0 55
copy device before
tpnet compact device
equal device before
copy fresh device
set device 7 09
copy device before
tpnet compact device
equal device before
copy fresh device
set device 512 00
copy device before
tpnet compact device
equal device before
copy fresh device
set device 13033 A5
copy device before
tpnet compact device
equal device before
# One that is not there is not made.
tpnet compact nowhere
there nowhere

story many
# Sixteen nodes in a chain; the ninth has a page more. The letter of the first has gone through all, and an Ack is on each line between
# them. All of it is in the cut: node by node it is what it was, and the network goes on as the one that wasn't compacted.
text net.txt node n0 4\nnode n1 4\nnode n2 4\nnode n3 4\nnode n4 4\nnode n5 4\nnode n6 4\nnode n7 4\nnode n8 5\nnode n9 4\nnode n10 4\nnode n11 4\nnode n12 4\nnode n13 4\nnode n14 4\nnode n15 4\nport h\nwire n0.0 n1.0\nwire n1.3 n2.0\nwire n2.3 n3.0\nwire n3.3 n4.0\nwire n4.3 n5.0\nwire n5.3 n6.0\nwire n6.3 n7.0\nwire n7.3 n8.0\nwire n8.3 n9.0\nwire n9.3 n10.0\nwire n10.3 n11.0\nwire n11.3 n12.0\nwire n12.3 n13.0\nwire n13.3 n14.0\nwire n14.3 n15.0\nwire n15.3 h\n
image n0.img
image n1.img 11 24 F2 54 41 F7 11 24 F2 53 41 FB 60 02
image n2.img 11 24 F2 54 41 F7 11 24 F2 53 41 FB 60 02
image n3.img 11 24 F2 54 41 F7 11 24 F2 53 41 FB 60 02
image n4.img 11 24 F2 54 41 F7 11 24 F2 53 41 FB 60 02
image n5.img 11 24 F2 54 41 F7 11 24 F2 53 41 FB 60 02
image n6.img 11 24 F2 54 41 F7 11 24 F2 53 41 FB 60 02
image n7.img 11 24 F2 54 41 F7 11 24 F2 53 41 FB 60 02
image n8.img 11 24 F2 54 41 F7 11 24 F2 53 41 FB 60 02
image n9.img 11 24 F2 54 41 F7 11 24 F2 53 41 FB 60 02
image n10.img 11 24 F2 54 41 F7 11 24 F2 53 41 FB 60 02
image n11.img 11 24 F2 54 41 F7 11 24 F2 53 41 FB 60 02
image n12.img 11 24 F2 54 41 F7 11 24 F2 53 41 FB 60 02
image n13.img 11 24 F2 54 41 F7 11 24 F2 53 41 FB 60 02
image n14.img 11 24 F2 54 41 F7 11 24 F2 53 41 FB 60 02
image n15.img 11 24 F2 54 41 F7 11 24 F2 53 41 FB 60 02
set n3.img 4267 33
cut n8.img 5292
set n8.img 2 05
tpnet format device net.txt . 100000
tpnet run device --turns 17 --workers 1 --quantum 16 --every 4294967295
copy device plain
tpnet recover device
tpnet compact device
tpnet recover device
tpnet journal device
tpnet show device
tpnet node device 0
tpnet node device 8
tpnet image device 3 >now
tpnet image plain 3 >then
equal now then
tpnet image device 8 >now
tpnet image plain 8 >then
equal now then
tpnet image device 15 >now
tpnet image plain 15 >then
equal now then
tpnet run device --turns 17 --workers 1 --quantum 16 --every 4294967295
tpnet run plain --turns 17 --workers 1 --quantum 16 --every 4294967295
tpnet image device 0 >now
tpnet image plain 0 >then
equal now then
tpnet image device 15 >now
tpnet image plain 15 >then
equal now then

story halted
# Four nodes halt, each for a reason of its own: one loads from outside, one has an operation that isn't there, one a 17th prefix, and
# one takes from a link that it has enabled. What is said of them stays so in a cut; a device in which none has a step is compacted, too.
text net.txt node a 4\nnode b 4\nnode c 4\nnode d 4\nport h\n
image a.img 45 30
image b.img 22 F2
image c.img 20 20 20 20 20 20 20 20 20 20 20 20 20 20 20 20 20 40
image d.img 24 F2 54 41 24 F8 11 24 F2 54 41 F7
tpnet format device net.txt . 40000
tpnet run device --turns 5 --workers 1 --explain
tpnet journal device
tpnet compact device
tpnet recover device
tpnet show device
tpnet node device 0
tpnet node device 1 >node
starts node node 1 pages 4 halt 2 UnknownOp\nIptr 80000100 
tpnet node device 2 >node
starts node node 2 pages 4 halt 3 LongPrefix\nIptr 80000100 
tpnet node device 3
tpnet run device --turns 5 --workers 1 --explain
tpnet compact device

story no_device
# What is no regular file isn't opened.
symlink /dev/null null_device
tpnet compact null_device
asked write

story last_numbers
# Ten numbers are left below 2^48, so ten entries are what the journal takes, though it has room for 105.
text net.txt node a 4\nport h\nwire a.0 h\n
image a.img
tpnet format device net.txt . 16384
set device 525 F5 FF FF FF FF FF
tpnet status device
tpnet compact device
tpnet run device --turns 4 --workers 1 --quantum 16
tpnet status device
tpnet compact device
tpnet status device

story last_generation
# Behind the last generation but one there is one cut more; behind the last one there is none, and the device stays as it is.
text net.txt node a 4\nport h\nwire a.0 h\n
image a.img
tpnet format device net.txt . 16384
set device 513 FE FF FF FF FF FF 00 00
tpnet compact device
copy device last
tpnet compact device
equal device last
tpnet recover device

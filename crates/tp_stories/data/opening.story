# What opens a device: recover and show, on devices whose bytes were worked out by hand.

story not_there
# A device that is not there can not be read.
tpnet recover device
tpnet show device

story fresh
# A device that was just formatted. Neither command changes its bytes, or when it was written or changed last.
text net.txt node a 4\nport h\nwire a.0 h\n
image a.img
tpnet format device net.txt . 16384
keep device
tpnet recover device
tpnet show device
stay

story group
# A group of four entries: a run of 3 steps, the letter, its acknowledge, and a run of 16 steps.
text net.txt node a 4\nport h\nwire a.0 h\n
image a.img
tpnet format device net.txt . 16384
set device 13033 A5 00 04 00 00 00 00 00 00 00 00 00 00 00 00 00
set device 13049 01 00 03 00 00 00 00 00 00 00 00 00 00 00 00 00
set device 13065 02 01 00 00 41 00 00 00 01 00 00 00 00 00 00 00
set device 13081 02 02 04 00 00 00 00 00 02 00 00 00 00 00 00 00
set device 13097 01 00 10 00 00 00 00 00 03 00 00 00 00 00 00 00
set device 13113 00
tpnet recover device
tpnet show device

story closed_gate
# A group behind a closed gate is not read, whatever of it is there.
text net.txt node a 4\nport h\nwire a.0 h\n
image a.img
tpnet format device net.txt . 16384
copy device fresh
copy fresh device
set device 13033 00
tpnet recover device
copy fresh device
set device 13033 A5
set device 13033 00
tpnet recover device
copy fresh device
set device 13033 A5 00 04 00 00 00 00
set device 13033 00
tpnet recover device
copy fresh device
set device 13033 A5 00 04 00 00 00 00 00 00 00 00 00 00 00 00 00
set device 13049 01 00 03 00 00 00 00 00 00 00 00 00 00 00 00 00
set device 13065 02 01 00 00 41 00 00 00
set device 13033 00
tpnet recover device
copy fresh device
set device 13033 A5 00 04 00 00 00 00 00 00 00 00 00 00 00 00 00
set device 13049 01 00 03 00 00 00 00 00 00 00 00 00 00 00 00 00
set device 13065 02 01 00 00 41 00 00 00 01 00 00 00 00 00 00 00
set device 13081 02 02 04 00 00 00 00 00 02 00 00 00 00 00 00 00
set device 13097 01 00 10 00 00 00 00 00 03 00 00 00 00 00 00 00
set device 13033 00
tpnet recover device
copy fresh device
set device 13033 5A
tpnet recover device
copy fresh device
set device 13033 A5
set device 13033 5A
tpnet recover device
copy fresh device
set device 13033 A5 00 04 00 00 00 00
set device 13033 5A
tpnet recover device
copy fresh device
set device 13033 A5 00 04 00 00 00 00 00 00 00 00 00 00 00 00 00
set device 13049 01 00 03 00 00 00 00 00 00 00 00 00 00 00 00 00
set device 13065 02 01 00 00 41 00 00 00
set device 13033 5A
tpnet recover device
copy fresh device
set device 13033 A5 00 04 00 00 00 00 00 00 00 00 00 00 00 00 00
set device 13049 01 00 03 00 00 00 00 00 00 00 00 00 00 00 00 00
set device 13065 02 01 00 00 41 00 00 00 01 00 00 00 00 00 00 00
set device 13081 02 02 04 00 00 00 00 00 02 00 00 00 00 00 00 00
set device 13097 01 00 10 00 00 00 00 00 03 00 00 00 00 00 00 00
set device 13033 5A
tpnet recover device
copy fresh device
set device 13033 FF
tpnet recover device
copy fresh device
set device 13033 A5
set device 13033 FF
tpnet recover device
copy fresh device
set device 13033 A5 00 04 00 00 00 00
set device 13033 FF
tpnet recover device
copy fresh device
set device 13033 A5 00 04 00 00 00 00 00 00 00 00 00 00 00 00 00
set device 13049 01 00 03 00 00 00 00 00 00 00 00 00 00 00 00 00
set device 13065 02 01 00 00 41 00 00 00
set device 13033 FF
tpnet recover device
copy fresh device
set device 13033 A5 00 04 00 00 00 00 00 00 00 00 00 00 00 00 00
set device 13049 01 00 03 00 00 00 00 00 00 00 00 00 00 00 00 00
set device 13065 02 01 00 00 41 00 00 00 01 00 00 00 00 00 00 00
set device 13081 02 02 04 00 00 00 00 00 02 00 00 00 00 00 00 00
set device 13097 01 00 10 00 00 00 00 00 03 00 00 00 00 00 00 00
set device 13033 FF
tpnet recover device

story damaged
# Bytes over a place of the formatted device, and what is said of it.
text net.txt node a 4\nport h\nwire a.0 h\n
image a.img
tpnet format device net.txt . 16384
copy device fresh
copy fresh device
set device 0 55
tpnet recover device
copy fresh device
set device 7 09
tpnet recover device
copy fresh device
set device 10 01
tpnet recover device
copy fresh device
set device 57 80
tpnet recover device
copy fresh device
set device 512 00
tpnet recover device
copy fresh device
set device 16896 A5 01 00 00 00 00 00 00 00
tpnet recover device
copy fresh device
set device 521 DD
tpnet recover device
copy fresh device
set device 533 02
tpnet recover device
copy fresh device
set device 4801 03
tpnet recover device
copy fresh device
set device 4805 01 02
tpnet recover device
copy fresh device
set device 4821 01
tpnet recover device
copy fresh device
set device 4837 01
tpnet recover device
copy fresh device
set device 4840 11
tpnet recover device
# Up to 4,096 bytes may be pending at a port, and then the first one is in flight: here none is. Behind them, and behind the outputs, all is 00.
copy fresh device
set device 4837 00 10
tpnet recover device
copy fresh device
set device 4837 01 10
tpnet recover device
copy fresh device
set device 4841 01
tpnet recover device
copy fresh device
set device 8936 01
tpnet recover device
copy fresh device
set device 8937 01
tpnet recover device
copy fresh device
set device 13032 01
tpnet recover device
# A port has accepted no more bytes, and put out no more, than there are entries in front of the area: here none, then five, then 8,192. Of its
# outputs 4,096 at most are unconfirmed.
copy fresh device
set device 4829 01
tpnet recover device
copy fresh device
set device 525 05
set device 4821 05
tpnet recover device
set device 4821 06
tpnet recover device
copy fresh device
set device 525 05
set device 4829 04
set device 4839 01
tpnet recover device
set device 4839 02
tpnet recover device
copy fresh device
set device 525 00 20
set device 4839 00 10
tpnet recover device
set device 4839 01 10
tpnet recover device
copy fresh device
set device 13033 A5
tpnet recover device

story damaged_group
# Bytes over a place of the device with the group.
text net.txt node a 4\nport h\nwire a.0 h\n
image a.img
tpnet format device net.txt . 16384
set device 13033 A5 00 04 00 00 00 00 00 00 00 00 00 00 00 00 00
set device 13049 01 00 03 00 00 00 00 00 00 00 00 00 00 00 00 00
set device 13065 02 01 00 00 41 00 00 00 01 00 00 00 00 00 00 00
set device 13081 02 02 04 00 00 00 00 00 02 00 00 00 00 00 00 00
set device 13097 01 00 10 00 00 00 00 00 03 00 00 00 00 00 00 00
set device 13113 00
copy device grown
copy grown device
set device 13035 00
tpnet recover device
copy grown device
set device 13041 01
tpnet recover device
copy grown device
set device 13051 02
tpnet recover device
copy grown device
set device 13051 04
tpnet recover device
copy grown device
set device 13069 42
tpnet recover device
copy grown device
set device 13105 04
tpnet recover device
# Numbers that don't rise make no group. A first number that isn't 0; and in a second group one that isn't above those of the first, and the next one.
copy grown device
set device 13105 02
tpnet recover device
copy grown device
set device 13041 01
set device 13057 01
set device 13073 02
set device 13089 03
set device 13105 04
tpnet recover device
copy grown device
set device 13113 A5 00 01 00 00 00 00 00 03 00 00 00 00 00 00 00
set device 13129 01 00 10 00 00 00 00 00 03 00 00 00 00 00 00 00
set device 13145 00
tpnet recover device
set device 13121 04
set device 13137 04
tpnet recover device
copy grown device
set device 13113 A5
tpnet recover device

story cut_short
# A device that is cut short.
text net.txt node a 4\nport h\nwire a.0 h\n
image a.img
tpnet format device net.txt . 16384
copy device fresh
copy fresh device
cut device 0
tpnet recover device
copy fresh device
cut device 511
tpnet recover device
copy fresh device
cut device 512
tpnet recover device
copy fresh device
cut device 33279
tpnet recover device

story two_nodes
# Two nodes, wired to each other and to a port, that both send on link 0. In the group each makes 3 steps, which send a letter,
# and takes the other's.
text net.txt # both send on link 0\nnode left 4\nnode right 4\nport h\nwire left.0 right.0\nwire right.3 h\n
image left.img
image right.img
tpnet format device net.txt . 65536
tpnet show device
set device 17317 A5 00 04 00 00 00 00 00 00 00 00 00 00 00 00 00
set device 17333 01 00 03 00 00 00 00 00 00 00 00 00 00 00 00 00
set device 17349 01 01 03 00 00 00 00 00 01 00 00 00 00 00 00 00
set device 17365 02 01 00 00 41 00 00 00 02 00 00 00 00 00 00 00
set device 17381 02 01 04 00 41 00 00 00 03 00 00 00 00 00 00 00
set device 17397 00
tpnet show device
tpnet recover device
copy device grown
# Nobody waits for the acknowledge of the byte on line 0.
copy grown device
set device 9069 01 01 00 41
tpnet recover device
# Link 1 of the first node has no wire.
copy grown device
set device 9073 01 02 00 00
tpnet recover device
# There is no third node.
copy grown device
set device 17334 02
tpnet recover device
# Another letter is in front of the line.
copy grown device
set device 17369 42
tpnet recover device
# Nothing is in front of the line.
copy grown device
set device 17383 00
tpnet recover device

story heads
# A narrow head keeps its limits: here one of 17 nodes, and one with a node of 257 pages, for which its area has room. Another version.
text net.txt node a 256\nport h\nwire a.0 h\n
image a.img
cut a.img 262316
set a.img 2 00 01
tpnet format device net.txt . 400000
copy device fresh
copy fresh device
set device 8 11
tpnet recover device
copy fresh device
set device 24 01 01
tpnet recover device
copy fresh device
set device 7 02
tpnet recover device
copy fresh device
set device 7 03
tpnet recover device
copy fresh device
set device 7 00
tpnet recover device
# A wide head has 1,024 bytes, and its own limits: 64 nodes of up to 1,024 pages.
text net.txt node n0 4\nnode n1 4\nnode n2 4\nnode n3 4\nnode n4 4\nnode n5 4\nnode n6 4\nnode n7 4\nnode n8 4\nnode n9 4\nnode n10 4\nnode n11 4\nnode n12 4\nnode n13 4\nnode n14 4\nnode n15 4\nnode n16 4\nport h\nwire n16.0 h\nwire n16.3 n0.0\n
image n0.img
image n1.img
image n2.img
image n3.img
image n4.img
image n5.img
image n6.img
image n7.img
image n8.img
image n9.img
image n10.img
image n11.img
image n12.img
image n13.img
image n14.img
image n15.img
image n16.img
tpnet format device net.txt . 100000
copy device wide
copy wide device
set device 7 01
tpnet recover device
copy wide device
set device 8 41
tpnet recover device
copy wide device
set device 24 01 04
tpnet recover device
# Link 1 of node 0 leads to a link that doesn't lead back; link 0 to one that isn't there, nor is port 1, nor port 256; the byte behind the ends.
copy wide device
set device 154 01
tpnet recover device
copy wide device
set device 153 01
tpnet recover device
copy wide device
set device 280 01
tpnet recover device
copy wide device
set device 281 81
tpnet recover device
copy wide device
set device 664 01
tpnet recover device
copy wide device
set device 1023 01
tpnet recover device
copy wide device
cut device 511
tpnet recover device
copy wide device
cut device 512
tpnet recover device
copy wide device
cut device 1023
tpnet recover device
copy wide device
cut device 1024
tpnet recover device
copy wide device
cut device 201023
tpnet recover device
copy wide device
set device 1024 00
tpnet recover device
copy wide device
set device 101024 A5 01 00 00 00 00 00 00 00
tpnet recover device
copy wide device
set device 1033 9D
tpnet recover device
copy wide device
set device 1045 02
tpnet recover device

story forms
# An area with turns, one without, and forms that aren't known.
text net.txt node a 4\nport h\nwire a.0 h\n
image a.img
tpnet format device net.txt . 16384
copy device fresh
tpnet status device
set device 531 00
tpnet recover device
tpnet status device
copy fresh device
set device 531 01
tpnet recover device
copy fresh device
set device 531 03
tpnet recover device
copy fresh device
set device 532 01
tpnet recover device
copy fresh device
set device 532 02
tpnet recover device
# The letter, and then its acknowledge and a run of 16 steps as one turn. It is printed, and the node goes on.
copy fresh device
set device 13033 A5 00 03 00 00 00 00 00 00 00 00 00 00 00 00 00
set device 13049 01 00 03 00 00 00 00 00 00 00 00 00 00 00 00 00
set device 13065 02 01 00 00 41 00 00 00 01 00 00 00 00 00 00 00
set device 13081 05 00 10 00 00 00 00 00 02 00 00 00 00 00 02 00
set device 13097 00
copy device turned
tpnet recover device
tpnet recover device --workers 2
tpnet journal device
tpnet show device
tpnet run device --turns 2 --workers 1 --quantum 16
# A turn of another token than is in front, of none, and one in an area without turns.
copy turned device
set device 13095 01
tpnet recover device
copy turned device
set device 13095 00
tpnet recover device
copy turned device
set device 531 00
tpnet recover device
tpnet recover device --workers 2
# Without it the area opens, and a checkpoint gives the other area the form with turns; with it a checkpoint holds what it led to.
set device 13035 02
set device 13081 00
tpnet recover device
tpnet status device
tpnet compact device
tpnet status device
show device 531 2
show device 16909 8
copy turned device
tpnet compact device
tpnet recover device
show device 16909 8

story two_open
# Both areas stand open, as behind each checkpoint: the one of higher generation is opened, whichever that is, and the other isn't read on.
# Where both have the same one, the second is damaged.
text net.txt node a 4\nport h\nwire a.0 h\n
image a.img
tpnet format device net.txt . 16384
part device head 0 512
part device area 512 16384
join device head area area
tpnet recover device
set device 16897 02
tpnet show device
set device 521 DD
tpnet recover device
set device 513 03
tpnet recover device
set device 521 DC
tpnet show device

# What looks into a device, and what says how large one has to be.

story looked_into
# The device of one node with a group of four entries, and one that is fresh. Looking changes nothing.
text net.txt node a 4\nport h\nwire a.0 h\n
image a.img
tpnet format device net.txt . 16384
copy device fresh
set device 13033 A5 00 04 00 00 00 00 00 00 00 00 00 00 00 00 00
set device 13049 01 00 03 00 00 00 00 00 00 00 00 00 00 00 00 00
set device 13065 02 01 00 00 41 00 00 00 01 00 00 00 00 00 00 00
set device 13081 02 02 04 00 00 00 00 00 02 00 00 00 00 00 00 00
set device 13097 01 00 10 00 00 00 00 00 03 00 00 00 00 00 00 00
set device 13113 00
copy device before
tpnet journal device
tpnet journal device --from 3
tpnet journal device --from=4
tpnet port device 0
tpnet port device 0 --outputs
tpnet port device 0 --pending
tpnet node fresh 0
tpnet check net.txt .
tpnet check net.txt . --json
# The node's image is one that is tried.
tpnet image device 0 >later.img 2>err
length later.img
tpnet try later.img --turns 4 >out 2>err
# A node or a port that is not there.
tpnet node device 1 2>err
tpnet image device 1 2>err
tpnet port device 8 2>err
equal device before

story registers
# All registers of a node differ, both queues have two ends, and link ends are at work: no two of them are exchanged, nor are their
# fields. (No node has a timer.) Its image is what stands on the device.
text net.txt node a 4\nport h\n
image a.img
set a.img 4 04 01 00 80 08 02 00 80 14 13 12 11 24 23 22 21 34 33 32 31
set a.img 24 80 02 00 80 90 02 00 80 A0 02 00 80 B0 02 00 80 01 02 02 01
tpnet format device net.txt . 16384
tpnet node device 0
set device 534 02
set device 574 01
set device 577 01 00 00 00 81 02 00 80 10 03 00 80 04 00 00 00
set device 609 01 00 00 00 91 02 00 80 20 03 00 80 05 00 00 00
set device 641 02 00 00 00 A1 02 00 80
set device 689 01 00 00 00 B1 02 00 80 30 03 00 80 06 00 00 00
tpnet node device 0
tpnet image device 0 >image
part device was 533 4268
equal image was

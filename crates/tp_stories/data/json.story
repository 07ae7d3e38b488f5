# What commands print with --json: one line of JSON, of the devices whose text other stories show.

story shown
# The device of one node with a group of four entries.
text net.txt node a 4\nport h\nwire a.0 h\n
image a.img
tpnet format device net.txt . 16384
copy device fresh
tpnet show fresh --json
set device 13033 A5 00 04 00 00 00 00 00 00 00 00 00 00 00 00 00
set device 13049 01 00 03 00 00 00 00 00 00 00 00 00 00 00 00 00
set device 13065 02 01 00 00 41 00 00 00 01 00 00 00 00 00 00 00
set device 13081 02 02 04 00 00 00 00 00 02 00 00 00 00 00 00 00
set device 13097 01 00 10 00 00 00 00 00 03 00 00 00 00 00 00 00
set device 13113 00
keep device
tpnet show device --json
tpnet show --json -- device
stay

story several
# Three nodes, of which the second and the third halted by different faults, and two ports. Each stands at its number.
text net.txt node a 4\nnode b 4\nnode c 4\nport h\nport k\n
image a.img
image b.img
image c.img
tpnet format device net.txt . 65536
set device 4802 01
set device 9070 04
tpnet show device
tpnet show device --json
# With --explain a run says of each by its number that it has halted.
tpnet run device --turns=1 --explain

story registers
# All registers of a node differ, both queues have two ends, link ends are at work, and one holds a byte; a node that is fresh.
text net.txt node a 4\nport h\nwire a.1 a.2\n
image a.img
tpnet format device net.txt . 16384
tpnet node device 0 --json
set device 537 04 01 00 80 08 02 00 80 14 13 12 11 24 23 22 21 34 33 32 31
set device 557 80 02 00 80 90 02 00 80 A0 02 00 80 B0 02 00 80 01 01 02 01
set device 534 02
set device 577 01 00 00 00 81 02 00 80 10 03 00 80 04 00 00 00
set device 609 01 00 00 00 91 02 00 80 20 03 00 80 05 00 00 00
set device 641 02 00 00 00 A1 02 00 80
set device 657 00 01 41
set device 689 01 00 00 00 B1 02 00 80 30 03 00 80 06 00 00 00
tpnet node device 0
tpnet node device 0 --json
tpnet node device 1 --json 2>err

story bytes
# Output that isn't confirmed, and no input.
text net.txt node a 4\nport h\nwire a.0 h\n
image a.img
tpnet format device net.txt . 16384
tpnet port device 0 --json
set device 13033 A5 00 04 00 00 00 00 00 00 00 00 00 00 00 00 00
set device 13049 01 00 03 00 00 00 00 00 00 00 00 00 00 00 00 00
set device 13065 02 01 00 00 41 00 00 00 01 00 00 00 00 00 00 00
set device 13081 02 02 04 00 00 00 00 00 02 00 00 00 00 00 00 00
set device 13097 01 00 10 00 00 00 00 00 03 00 00 00 00 00 00 00
set device 13113 00
tpnet port device 0 --json
tpnet port device 0 --json --outputs
tpnet port device 0 --pending --json
tpnet port device 8 --json 2>err

story refused
# A refusal prints nothing on standard output, whatever is asked for. Behind the dashes --json is a name.
tpnet show nowhere --json
tpnet show -- --json
tpnet show nowhere --json --json 2>err
tpnet show nowhere --json=yes 2>err
tpnet show --json 2>err
tpnet node nowhere 0 --json
tpnet port nowhere 0 --json
tpnet recover nowhere --json 2>err
tpnet image nowhere 0 --json 2>err

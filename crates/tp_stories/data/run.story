# What run makes of a device, prints and refuses.

story letter
# The letter is printed once, and confirmed; no turn more makes no entry. The file keeps its length.
text net.txt node a 4\nport h\nwire a.0 h\n
image a.img
tpnet format device net.txt . 16384
length device
tpnet run device --turns 4 --workers 1 --quantum 16
tpnet show device
tpnet run device --turns=0
tpnet journal device
tpnet run device --turns 4 --workers 1 --quantum 16
length device

story echo
# A node sends back each byte that it gets. What the port has accepted is passed over, also where the file is shorter.
text net.txt node a 4\nport h\nwire a.0 h\n
image a.img 11 24 F2 54 41 F7 11 24 F2 41 FB 60 03
tpnet format device net.txt . 65536
text input
tpnet run device --turns 40 --workers 1 --in input 2>err
text input ab
tpnet run device --turns 40 --workers 1 --in input 2>err
text input ab
tpnet run device --turns 40 --workers 1 --in input 2>err
text input abcd
tpnet run device --turns 40 --workers 1 --in input 2>err
text input a
tpnet run device --turns 40 --workers 1 --in input 2>err
tpnet show device >shown
ends shown port 0 taken 4 pending 0 confirmed 4 unconfirmed 0\n

story room
# More input than a port has room for is handed in by further runs, once the node takes what is pending: in nine turns four bytes, which it sends
# back.
text net.txt node a 4\nport h\nwire a.0 h\n
image a.img 11 24 F2 54 41 F7 11 24 F2 41 FB 60 03
tpnet format device net.txt . 262144
fill input 5000 78
tpnet run device --turns 0 --in input
tpnet show device >shown
ends shown port 0 taken 0 pending 4096 confirmed 0 unconfirmed 0\n
tpnet run device --turns 0 --in input
tpnet run device --turns 9 --workers 1 --in input
tpnet show device >shown
ends shown port 0 taken 4 pending 4092 confirmed 4 unconfirmed 0\n
tpnet run device --turns 0 --in input
tpnet show device >shown
ends shown port 0 taken 4 pending 4096 confirmed 4 unconfirmed 0\n

story refused
# A byte over a place of the device, and a command line: what comes first is said, and the device stays as it is.
text net.txt node a 4\nport h\nwire a.0 h\n
image a.img
tpnet format device net.txt . 16384
copy device fresh
copy fresh device
set device 0 54
copy device before
tpnet run device --turns 4 --in nowhere
equal device before
copy fresh device
set device 0 55
copy device before
tpnet run device --turns 4 --in nowhere
equal device before
copy fresh device
set device 0 55
copy device before
tpnet run device --turns 4 --port 1
equal device before
copy fresh device
set device 7 09
copy device before
tpnet run device --turns 4
equal device before
copy fresh device
set device 512 00
copy device before
tpnet run device --turns 4 --spare 5
equal device before
copy fresh device
set device 13033 A5
copy device before
tpnet run device --turns 4 --port 256
equal device before
copy fresh device
set device 0 54
copy device before
tpnet run device --turns 4 --spare 5
equal device before
copy fresh device
set device 0 54
copy device before
tpnet run device --turns 4 --spare 65536
equal device before
copy fresh device
set device 0 54
copy device before
tpnet run device --turns 4 --port 1
equal device before
copy fresh device
set device 0 54
copy device before
tpnet run device --turns 4 --port 256
equal device before
# A device that is not there is not made.
tpnet run nowhere --turns 4
there nowhere
tpnet run nowhere --turns 0

story full
# An area with room for one entry, one with room for four, one with room for five, where no checkpoint frees it, and one with room for 105.
text net.txt node a 4\nport h\nwire a.0 h\n
image a.img
tpnet format device net.txt . 13034
text input ab
tpnet run device --turns 40 --workers 1 --in input
tpnet run device --turns=0
text net.txt node a 4\nport h\nwire a.0 h\n
image a.img
tpnet format device net.txt . 13130
text input ab
tpnet run device --turns 6 --workers 1 --quantum 16 --every 4294967295
tpnet run device --turns=0
tpnet recover device
text net.txt node a 4\nport h\nwire a.0 h\n
image a.img
tpnet format device net.txt . 13162
text input ab
tpnet run device --turns 6 --workers 1 --quantum 16 --every 4294967295
tpnet show device
# Input that has more bytes than there is room for is refused, whole.
tpnet format device net.txt . 16384
fill over 106 6D
fill more 102 6D
fill most 101 6D
tpnet run device --turns=0 --in over
tpnet recover device
tpnet run device --turns 4 --workers 1 --quantum 16
tpnet run device --turns=0 --in more
tpnet recover device
tpnet run device --turns=0 --in most
tpnet run device --turns=0 --in more
tpnet run device --turns=0 --in most

story steps
# Turns that end within a round, and runs of one step, of 1024 and of 4096: each run that is opened begins with node 0. No turn makes no
# entry, and what sixteen workers do in one turn is what one does.
text net.txt node a 4\nport h\nwire a.0 h\n
image a.img
tpnet format device net.txt . 16384
tpnet run device --turns 1 --workers 1 --quantum 1
tpnet run device --turns 0 --workers 1 --quantum 1
tpnet run device --turns 1 --workers 16 --quantum 1
tpnet run device --turns 3 --workers 1 --quantum 1
tpnet run device --turns 1 --workers 2
tpnet run device --turns 1 --workers 16 --quantum 4096
tpnet journal device

story workers
# However many workers there are, a node that sends a letter and stops makes these four entries.
text net.txt node a 4\nport h\nwire a.0 h\n
image a.img 27 2F 2F 2F 2F 2F 6F 40 24 41 FE 21 F5
tpnet format one net.txt . 16384
copy one two
copy one sixteen
tpnet run one --turns 5 --workers 1
tpnet journal one
# In each run the first two turns are of the node and of the host, in whatever order they end: so behind three runs all four are made.
tpnet run two --turns 40 >out 2>err
tpnet run two --turns 40 >out 2>err
tpnet run two --turns 40 >out 2>err
tpnet show two
tpnet run sixteen --turns 40 --workers 16 >out 2>err
tpnet run sixteen --turns 40 --workers 16 >out 2>err
tpnet run sixteen --turns 40 --workers 16 >out 2>err
tpnet show sixteen

story second_port
# A node hands on what port 0 gets to port 1: the input goes to the port that is named, and its output alone is printed and confirmed.
text net.txt node a 4\nport from\nport to\nwire a.0 from\nwire a.3 to\n
image a.img 11 24 F2 54 41 F7 11 24 F2 53 41 FB 60 02
text in ab
text more z
tpnet format device net.txt . 65536
tpnet run device --turns 3 --workers 1 --in in
tpnet run device --turns 5 --workers 1 --in in
tpnet port device 0
tpnet port device 1
tpnet run device --turns 0 --port 1
tpnet run device --turns 0 --port 1 --in more
tpnet run device --turns 0 --port 2 2>err
tpnet journal device
tpnet journal device --json --from 5 --to 6
tpnet show device
tpnet port device 1 --pending
tpnet port device 0 --pending

story two_wires
# Two wires between two nodes: one sends B on its link 1 and then A on its link 0, the other hands on what comes on its link 1 and leaves
# the other byte.
text net.txt node a 4\nnode b 4\nport h\nwire a.0 b.0\nwire b.1 a.1\nwire b.3 h\n
image a.img 24 F2 51 24 42 FE 24 F2 24 41 FE 21 F5
image b.img 11 24 F2 55 41 F7 11 24 F2 53 41 FB 60 02
tpnet format device net.txt . 65536
tpnet run device --turns 7 --workers 1
tpnet journal device
tpnet node device 0
tpnet node device 1

story every
# A snapshot that begins behind each entry changes nothing of what is printed or journalled; nor does one that never begins.
text net.txt node a 4\nport h\nwire a.0 h\n
image a.img
tpnet format often net.txt . 16384
copy often never
tpnet run often --turns 40 --workers 1 --quantum 16 --every 1
tpnet recover often
tpnet run never --turns 40 --workers 1 --quantum 16 --every 4294967295
tpnet show never

story copied_in_the_end
# While turns are made, no further image is copied once 1,024 pages were; behind the last turn all are. A snapshot begins behind the tenth entry, and
# each of seven nodes has recorded eight turns later: so those ten entries are in the checkpoint as the run ends.
text net.txt node a 1024\nnode b 1024\nnode c 1024\nnode d 1024\nnode e 1024\nnode f 1024\nnode g 1024\nport h\n
image a.img 60 0E
cut a.img 1048748
set a.img 2 00 04
copy a.img b.img
copy a.img c.img
copy a.img d.img
copy a.img e.img
copy a.img f.img
copy a.img g.img
tpnet format device net.txt . --area 8M
tpnet run device --turns 20 --workers 1 --quantum 1 --every 10
tpnet show device

story begun_by_two
# A snapshot is due behind each entry, and often two workers find that at once: the one that comes second makes its turns all the same. Five nodes
# of six are no other worker's, so more than half of the turns make an entry, in whatever order threads run: there are 10,000 entries and more.
text net.txt node a 4\nnode b 4\nnode c 4\nnode d 4\nnode e 4\nnode f 4\nport h\n
image a.img 60 0E
copy a.img b.img
copy a.img c.img
copy a.img d.img
copy a.img e.img
copy a.img f.img
tpnet format device net.txt . --area 4M
tpnet run device --turns 20000 --workers 2 --quantum 1 --every 1 2>err
starts err next
length err

story spare
# What the smallest node has is the most, whichever it is; a device that is refused so stays as it is.
text net.txt node a 8\nnode b 4\nport h\n
image a.img
cut a.img 8364
set a.img 2 08
image b.img
tpnet format device net.txt . 65536
copy device before
tpnet run device --turns 3 --workers 1 --spare 5 2>err
tpnet run device --stream --until-quiet --spare 5 2>err
equal device before
tpnet run device --turns 3 --workers 1 --spare 0
tpnet run device --turns 3 --workers 1 --spare 1
tpnet run device --stream --until-quiet --spare 4

story frozen
# A node writes a word again and again. A snapshot begins behind its first run, and it records in its next turn, before it runs: so it makes
# no step then where it has no spare frame for the page, and sixteen where it has one. Behind one entry none begins yet where two are asked for.
text net.txt node a 4\nport h\nwire a.0 h\n
image a.img 41 D0 60 0C
tpnet format device net.txt . 16384
copy device one
copy device two
tpnet run device --turns 3 --workers 1 --quantum 16 --every 1 --spare 0
tpnet journal device
tpnet run one --turns 3 --workers 1 --quantum 16 --every 1 --spare 1
tpnet recover one
tpnet run two --turns 3 --workers 1 --quantum 16 --every 2 --spare 0
# One that writes a word of the first page and one of the second, again and again, five steps a round, is to write the first of them then: it makes
# two steps where it has one spare frame, and sixteen where it has two.
image a.img 41 D0 41 21 20 D0 60 08
tpnet format device net.txt . 16384
copy device one
tpnet run one --turns 3 --workers 1 --quantum 16 --every 1 --spare 1
tpnet journal one --from 1
tpnet run device --turns 3 --workers 1 --quantum 16 --every 1 --spare 2
tpnet journal device --from 1

story unconfirmed
# A node sends 4200 bytes at once. Its port takes 4096 and no more, until they are printed and confirmed; then it takes the rest. A stream
# goes on from the 4096 by itself, whether it writes them or lets them go.
text net.txt node a 5\nport h\nport g\nwire a.0 h\n
image a.img 21 10 24 F2 21 20 26 48 FB 21 F5
cut a.img 5292
set a.img 2 05
set a.img 748 61 62 63
set a.img 4843 78 79
set a.img 4947 7A
part a.img wanted 748 4200
part a.img first 748 4096
part a.img rest 4844 104
tpnet format device net.txt . 300000
tpnet run device --turns 9000 --workers 1 --every 4294967295 --port 1
tpnet show device
tpnet port device 0 >held
equal held first
copy device written
copy device let_go
tpnet run device --turns 0 >out
equal out first
tpnet run device --turns 300 --workers 1 --every 4294967295 >out
equal out rest
tpnet run written --stream --until-quiet --out 0=all 2>err
ends err  quiet\n
equal all wanted
tpnet run let_go --stream --until-quiet --discard 0 2>err
ends err  quiet\n
tpnet show let_go >shown
ends shown \nport 0 taken 0 pending 0 confirmed 4200 unconfirmed 0\nport 1 taken 0 pending 0 confirmed 0 unconfirmed 0\n

story long
# 70,000 turns of one worker: every other one is the node's, which makes an entry, and the host takes the letter and confirms it. Then one turn
# more, which is the node's, since a run begins with the first one.
text net.txt node a 4\nport h\nwire a.0 h\n
image a.img
tpnet format device net.txt . 4194304
tpnet run device --turns 70000 --workers 1 --quantum 16 --every 4294967295
tpnet journal device --last 2
tpnet recover device
tpnet run device --turns 70001 --workers 1 --quantum 16 --every 4294967295
tpnet journal device --last 1
tpnet status device

story in_use
# A device that another process has is left alone by each command that would write it.
text net.txt node a 4\nport h\nwire a.0 h\n
image a.img 11 24 F2 54 41 F7 11 24 F2 41 FB 60 03
tpnet format device net.txt . 16384
keep device
held 100
tpnet run device --turns 4
tpnet compact device
tpnet format device net.txt . 16384
tpnet run device --stream --in 0=-
asked stdin
stay

story changed
# A device that another process makes, or removes, while a command asks for it isn't that command's: it is neither read, written nor made.
text net.txt node a 4\nport h\nwire a.0 h\n
image a.img 11 24 F2 54 41 F7 11 24 F2 41 FB 60 03
held 0 1 +device
tpnet run device --turns 4 --explain
length device
remove device
tpnet run device --stream --turns 4 --explain
length device
remove device
tpnet compact device
length device
remove device
tpnet format device net.txt . 16384 --explain
length device
# What it makes may be a folder.
held 0 1 one/
tpnet run one --turns 4 --explain
held 0 1 two/
tpnet run two --stream --turns 4 --discard 0 --explain
held 0 1 three/
tpnet compact three --explain
held 0 1 four/
tpnet format four net.txt . 16384 --explain
held
# Where it was there before, it is no device.
tpnet run one --turns 4
tpnet compact one
tpnet format device net.txt . 16384
held 0 1 device
tpnet format device net.txt . 16384
there device
held
tpnet format kept net.txt . 16384
copy kept device
held 0 1 device
tpnet run device --turns 4 --explain
there device
copy kept device
tpnet run device --stream --turns 4 --discard 0 --explain
there device
copy kept device
tpnet compact device --explain
there device
held
# Where nothing was there, a command that needs a device says that.
tpnet run device --turns 4
tpnet run device --stream --turns 4 --discard 0
tpnet compact device
# It is asked whether the device stands there still once that is open: what comes there then is another's, and stays as it is.
tpnet format device net.txt . 16384
text given ab
copy device theirs
copy theirs other
rival 1 other
tpnet run device --turns 0 --in given
equal device theirs
copy theirs other
tpnet run device --stream --turns 0 --discard 0 --in 0=given 2>err
equal device theirs
copy theirs other
tpnet compact device >out 2>err
equal device theirs
rival

story halted
# A node that has halted has its turns as before: its link takes a byte, and it makes no step. A turn that takes nothing makes no entry.
text net.txt node a 4\nport h\nwire a.0 h\n
image a.img 45 30
tpnet format device net.txt . 16384
tpnet run device --turns 1 --workers 1
text input ab
tpnet run device --turns 5 --workers 1 --in input
tpnet journal device
tpnet node device 0 >node
has node halt 1 BadAddress
has node in 0 idle held 61

story quiet
# A node sends back each byte that it gets. Once it waits and nothing is under way a run says quiet, and not while a byte or an Ack still is: on the way to
# the node, to the port, and back to the node.
text net.txt node a 4\nport h\nwire a.0 h\n
image a.img 11 24 F2 54 41 F7 11 24 F2 41 FB 60 03
tpnet format device net.txt . 65536
tpnet run device --turns 0
tpnet run device --turns 1 --workers 1
text input a
tpnet run device --turns 0 --in input
tpnet run device --turns 1 --workers 1
tpnet run device --turns 2 --workers 1
tpnet run device --turns 1 --workers 1
tpnet run device --turns 8 --workers 4 --in input

story all_halted
# A run says halted once each node has, and not before; a byte that is under way to one changes nothing of that.
text net.txt node a 4\nnode b 4\nport h\nwire a.0 h\n
image a.img 40 30
image b.img 22 F2
tpnet format device net.txt . 65536
tpnet run device --turns 1 --workers 1
tpnet run device --turns 2 --workers 1
text input a
tpnet run device --turns 0 --in input
tpnet run device --turns 0 --explain
# Where the other node waits nothing is left to do.
image b.img 11 24 F2 54 41 F7 11 24 F2 41 FB 60 03
remove device
tpnet format device net.txt . 65536
tpnet run device --turns 2 --workers 1

story shut
# A standard output that takes nothing, as on a full disk, is a fault, and the letter isn't confirmed: the next run prints it.
text net.txt node a 4\nport h\nwire a.0 h\n
image a.img
tpnet format device net.txt . 16384
shut full
tpnet run device --turns 4 --workers 1 --quantum 16
shut
tpnet run device --turns=0

# The part of a journal that is shown, and options that are refused.

story parts
# Node 0 sends a letter to the port, and then goes round; node 1 goes round. The host's entries are what the port takes, its confirm, and a
# byte that is handed in and that no node takes. Looking changes nothing.
text net.txt node a 4\nnode b 4\nport h\nwire a.0 h\n
text in z
image a.img
image b.img 60 0E
tpnet format device net.txt . 24576
tpnet run device --turns 6 --workers 1 --quantum 16
tpnet run device --turns 0 --in in
keep device
tpnet journal device
# Up to a number: the first, the last but one, the last, and one that isn't there yet.
tpnet journal device --to 0
tpnet journal device --to 5
tpnet journal device --from 5 --to 6
tpnet journal device --from 5 --to=7
tpnet journal device --from 3 --to 3
tpnet journal device --from 7 --to 18446744073709551615
# A node's: none of the host's is among them. A node that isn't there is refused, also the first one behind the last.
tpnet journal device --node 0
tpnet journal device --node 1
tpnet journal device --node 2
tpnet journal device --node 18446744073709551615
# The last ones: fewer than there are, as many, and more.
tpnet journal device --last 1
tpnet journal device --last 6
tpnet journal device --last 7 >seven
tpnet journal device --last 8 >eight
tpnet journal device --last 18446744073709551615 >most
tpnet journal device >all
equal seven all
equal eight all
equal most all
# The last ones of what would be shown else: of a node, or up to a number.
tpnet journal device --node 0 --last 1
tpnet journal device --last 2 --node 0
tpnet journal device --node 0 --last 3
tpnet journal device --to 3 --last 2
tpnet journal device --from 1 --to 4 --node 1 --last 1
tpnet journal device --from 1 --to 2 --node 0
# As JSON, an object an entry.
tpnet journal device --json
tpnet journal device --json --node 0 --last 1
tpnet journal device --json --from 7
stay
# Behind a checkpoint there is nothing, and the node has to be there all the same.
tpnet compact device >out
tpnet journal device --node 1 --last 1
tpnet journal device --node 2 2>err

story takes
# In a journal whose takes are entries of their own, a take is of whoever receives the line: line 4 goes to the node, line 0 to the port.
text net.txt node a 4\nport h\nwire a.0 h\n
image a.img
tpnet format device net.txt . 16384
set device 13033 A5 00 04 00 00 00 00 00 00 00 00 00 00 00 00 00
set device 13049 01 00 03 00 00 00 00 00 00 00 00 00 00 00 00 00
set device 13065 02 01 00 00 41 00 00 00 01 00 00 00 00 00 00 00
set device 13081 02 02 04 00 00 00 00 00 02 00 00 00 00 00 00 00
set device 13097 01 00 10 00 00 00 00 00 03 00 00 00 00 00 00 00
set device 13113 00
tpnet journal device --node 0
tpnet journal device --node 0 --last 2
tpnet journal device --json --node 0 --from 2
# The host is no node.
tpnet journal device --node 1 2>err

story words
# Words that are refused before any file is opened: here there is no device.
tpnet journal device --from 4 --to 3
tpnet journal device --to 0 --from 1
tpnet journal device --last 0
tpnet journal device --last 01
tpnet journal device --to 18446744073709551616
tpnet journal device --from +1
tpnet journal device --node a
tpnet journal device --node -1 2>err
tpnet journal device --node 1 --node 2 2>err
starts err error: 
tpnet journal device --last 2>err
starts err error: 
tpnet journal device --json --to 3 --from 4
# Where the words are good, the device is asked for.
tpnet journal device --from 3 --to 3
tpnet journal --help >out
has out --to <N>
has out --node <I>
has out --last <K>

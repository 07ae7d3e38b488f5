# Who waits for whom: what `waits` prints of networks that stand still.

story both_input
# Two nodes that each input one byte from the other. Before their first turns both run. Looking changes nothing.
text net.txt node a 4\nnode b 4\nport h\nwire a.1 b.0\nwire a.0 h\n
image a.img 11 24 F2 55 41 F7 21 F5
image b.img 11 24 F2 54 41 F7 21 F5
tpnet format device net.txt . 65536
tpnet waits device
tpnet run device --turns 6 --workers 1
keep device
tpnet waits device
tpnet waits device --json
tpnet waits --json -- device
stay
tpnet compact device
tpnet waits device

story reasons
# Node 0 sends to port 0 without an end, and nobody confirms; node 1 waits for input; node 2 at a link without a wire; node 3 halts; node 4
# waits for it, node 5 for node 4, and node 6 for node 5, in an alternative.
text net.txt node a 4\nnode b 4\nnode c 4\nnode d 4\nnode e 4\nnode f 4\nnode g 4\nport h\nport k\nwire a.0 h\nwire b.0 k\nwire d.0 e.0\nwire e.1 f.0\nwire f.1 g.0\n
image a.img 24 F2 24 41 FE 60 09
image b.img 11 24 F2 54 41 F7
image c.img 11 24 F2 57 41 F7
image d.img 22 F2
image e.img 11 24 F2 54 41 F7
image f.img 11 24 F2 54 41 F7
image g.img 24 F3 24 F2 54 41 24 F8 24 F4
tpnet format device net.txt .
tpnet run device --turns 16 --workers 1 --port 1 2>err
tpnet waits device >early
has early node 0 out 0 sends left 1 since 8 process 80000201 at 80000105 to port 0: under way\n
tpnet run device --turns 40000 --workers 1 --port 1 2>err
tpnet waits device >out
has out node 0 out 0 sends left 1 since 8198 process 80000201 at 80000105 to port 0: full\n
has out node 1 in 0 inputs left 1 since 1 process 80000201 at 80000106 from port 1: no input\n
has out node 2 in 3 inputs left 1 since 2 process 80000201 at 80000106 from nobody: no wire\n
has out \nnode 3 halted 2 UnknownOp at 80000100 last 
has out node 4 in 0 inputs left 1 since 4 process 80000201 at 80000106 from node 3 link 0: halted\n
has out node 5 in 0 inputs left 1 since 5 process 80000201 at 80000106 from node 4 link 1: waits elsewhere\n
has out node 6 in 0 chooses left 0 since 6 process 80000201 at 8000010A from node 5 link 1: waits elsewhere\n
ends out waits elsewhere\nfull: node 0 link 0 waits for port 0\nno input: node 1 link 0 waits for port 1\nno wire: node 2 link 3 waits for nobody\nhalted: node 4 link 0 waits for node 3 link 0\n
tpnet waits device --json >json
has json {"node":3,"does":"halted","fault":"UnknownOp","at":2147483904,"last":
has json "other":{"port":0},"why":"full"}
has json "other":null,"why":"no wire"}

story ring
# Three nodes of which each sends to the next one first, and none inputs: nobody waits for a byte on the same wire.
text net.txt node a 4\nnode b 4\nnode c 4\nport h\nwire a.1 b.0\nwire b.1 c.0\nwire c.1 a.0\nwire a.2 h\n
image a.img 11 24 F2 51 41 FB 11 24 F2 54 41 F7
image b.img 11 24 F2 51 41 FB 11 24 F2 54 41 F7
image c.img 11 24 F2 51 41 FB 11 24 F2 54 41 F7
tpnet format device net.txt . 65536
tpnet run device --turns 16 --workers 1
tpnet waits device

story since
# Node 0 inputs three bytes; node 1 inputs one byte, again and again. A byte that comes in leaves node 0 in its wait. It ends the one of node 1, which then
# begins an equal one. After a checkpoint each wait is older than all entries; it stays so while bytes of its message come in.
text net.txt node a 4\nnode b 4\nport h\nport k\nwire a.0 h\nwire b.0 k\n
image a.img 11 24 F2 54 43 F7 21 F5
image b.img 11 24 F2 54 41 F7 60 08
tpnet format device net.txt . 65536
tpnet run device --turns 2 --workers 1 2>err
tpnet waits device
text in z
text more xy
tpnet run device --turns 0 --in in 2>err
tpnet run device --turns 0 --in more --port 1 2>err
tpnet run device --turns 4 --workers 1 2>err
tpnet journal device --from 5
tpnet waits device
tpnet run device --turns 4 --workers 1 2>err
tpnet waits device
tpnet compact device
tpnet waits device
tpnet waits device --json
text in zq
tpnet run device --turns 0 --in in 2>err
tpnet run device --turns 2 --workers 1 2>err
tpnet journal device
tpnet waits device

story parity
# 64 nodes in a ring exchange bytes with their neighbours, on one wire and then on the other. An even one sends to the right first, an odd one inputs
# from the left first; but node 17 sends, too. In the end all wait, and one wire is named; with maps, so are both instructions.
text net.txt node n0 4\nnode n1 4\nnode n2 4\nnode n3 4\nnode n4 4\nnode n5 4\nnode n6 4\nnode n7 4\nnode n8 4\nnode n9 4\nnode n10 4\nnode n11 4\nnode n12 4\nnode n13 4\nnode n14 4\nnode n15 4\nnode n16 4\nnode n17 4\nnode n18 4\nnode n19 4\nnode n20 4\nnode n21 4\nnode n22 4\nnode n23 4\nnode n24 4\nnode n25 4\nnode n26 4\nnode n27 4\nnode n28 4\nnode n29 4\nnode n30 4\nnode n31 4\nnode n32 4\nnode n33 4\nnode n34 4\nnode n35 4\nnode n36 4\nnode n37 4\nnode n38 4\nnode n39 4\nnode n40 4\nnode n41 4\nnode n42 4\nnode n43 4\nnode n44 4\nnode n45 4\nnode n46 4\nnode n47 4\nnode n48 4\nnode n49 4\nnode n50 4\nnode n51 4\nnode n52 4\nnode n53 4\nnode n54 4\nnode n55 4\nnode n56 4\nnode n57 4\nnode n58 4\nnode n59 4\nnode n60 4\nnode n61 4\nnode n62 4\nnode n63 4\nport h\nwire n0.1 n1.0\nwire n1.1 n2.0\nwire n2.1 n3.0\nwire n3.1 n4.0\nwire n4.1 n5.0\nwire n5.1 n6.0\nwire n6.1 n7.0\nwire n7.1 n8.0\nwire n8.1 n9.0\nwire n9.1 n10.0\nwire n10.1 n11.0\nwire n11.1 n12.0\nwire n12.1 n13.0\nwire n13.1 n14.0\nwire n14.1 n15.0\nwire n15.1 n16.0\nwire n16.1 n17.0\nwire n17.1 n18.0\nwire n18.1 n19.0\nwire n19.1 n20.0\nwire n20.1 n21.0\nwire n21.1 n22.0\nwire n22.1 n23.0\nwire n23.1 n24.0\nwire n24.1 n25.0\nwire n25.1 n26.0\nwire n26.1 n27.0\nwire n27.1 n28.0\nwire n28.1 n29.0\nwire n29.1 n30.0\nwire n30.1 n31.0\nwire n31.1 n32.0\nwire n32.1 n33.0\nwire n33.1 n34.0\nwire n34.1 n35.0\nwire n35.1 n36.0\nwire n36.1 n37.0\nwire n37.1 n38.0\nwire n38.1 n39.0\nwire n39.1 n40.0\nwire n40.1 n41.0\nwire n41.1 n42.0\nwire n42.1 n43.0\nwire n43.1 n44.0\nwire n44.1 n45.0\nwire n45.1 n46.0\nwire n46.1 n47.0\nwire n47.1 n48.0\nwire n48.1 n49.0\nwire n49.1 n50.0\nwire n50.1 n51.0\nwire n51.1 n52.0\nwire n52.1 n53.0\nwire n53.1 n54.0\nwire n54.1 n55.0\nwire n55.1 n56.0\nwire n56.1 n57.0\nwire n57.1 n58.0\nwire n58.1 n59.0\nwire n59.1 n60.0\nwire n60.1 n61.0\nwire n61.1 n62.0\nwire n62.1 n63.0\nwire n63.1 n0.0\nwire n0.2 h\n
image even.img 11 24 F2 51 41 FB 11 24 F2 55 41 F7 11 24 F2 54 41 F7 11 24 F2 50 41 FB 61 06
image odd.img 11 24 F2 54 41 F7 11 24 F2 50 41 FB 11 24 F2 51 41 FB 11 24 F2 55 41 F7 61 06
copy even.img n0.img
copy odd.img n1.img
copy even.img n2.img
copy odd.img n3.img
copy even.img n4.img
copy odd.img n5.img
copy even.img n6.img
copy odd.img n7.img
copy even.img n8.img
copy odd.img n9.img
copy even.img n10.img
copy odd.img n11.img
copy even.img n12.img
copy odd.img n13.img
copy even.img n14.img
copy odd.img n15.img
copy even.img n16.img
image n17.img 11 24 F2 50 41 FB 11 24 F2 54 41 F7 11 24 F2 51 41 FB 11 24 F2 55 41 F7 61 06
copy even.img n18.img
copy odd.img n19.img
copy even.img n20.img
copy odd.img n21.img
copy even.img n22.img
copy odd.img n23.img
copy even.img n24.img
copy odd.img n25.img
copy even.img n26.img
copy odd.img n27.img
copy even.img n28.img
copy odd.img n29.img
copy even.img n30.img
copy odd.img n31.img
copy even.img n32.img
copy odd.img n33.img
copy even.img n34.img
copy odd.img n35.img
copy even.img n36.img
copy odd.img n37.img
copy even.img n38.img
copy odd.img n39.img
copy even.img n40.img
copy odd.img n41.img
copy even.img n42.img
copy odd.img n43.img
copy even.img n44.img
copy odd.img n45.img
copy even.img n46.img
copy odd.img n47.img
copy even.img n48.img
copy odd.img n49.img
copy even.img n50.img
copy odd.img n51.img
copy even.img n52.img
copy odd.img n53.img
copy even.img n54.img
copy odd.img n55.img
copy even.img n56.img
copy odd.img n57.img
copy even.img n58.img
copy odd.img n59.img
copy even.img n60.img
copy odd.img n61.img
copy even.img n62.img
copy odd.img n63.img
tpnet format device net.txt . 1409782
tpnet run device --turns 20000 --workers 1 2>err
tpnet waits device >out
ends out waits elsewhere\nboth send: node 16 link 1 waits for node 17 link 0\ncycle: nodes 16 17\n
has out node 17 out 0 sends left 1 since 17 process 80000201 at 80000106 to node 16 link 1: both send\n
folder maps
text maps/all.map 80000100 right even.asm:3\n80000100 - even.asm:3\n80000101 - even.asm:4\n80000103 - even.asm:5\n80000104 - even.asm:6\n80000105 - even.asm:7\n80000106 - even.asm:8\n80000107 - even.asm:9\n80000109 - even.asm:10\n8000010A - even.asm:11\n8000010B - even.asm:12\n8000010C left even.asm:13\n8000010C - even.asm:13\n8000010D - even.asm:14\n8000010F - even.asm:15\n80000110 - even.asm:16\n80000111 - even.asm:17\n80000112 - even.asm:18\n80000113 - even.asm:19\n80000115 - even.asm:20\n80000116 - even.asm:21\n80000117 - even.asm:22\n80000118 again even.asm:23\n80000118 - even.asm:23\n
text odd.map 80000100 left odd.asm:3\n80000100 - odd.asm:3\n80000101 - odd.asm:4\n80000103 - odd.asm:5\n80000104 - odd.asm:6\n80000105 - odd.asm:7\n80000106 - odd.asm:8\n80000107 - odd.asm:9\n80000109 - odd.asm:10\n8000010A - odd.asm:11\n8000010B - odd.asm:12\n8000010C right odd.asm:13\n8000010C - odd.asm:13\n8000010D - odd.asm:14\n8000010F - odd.asm:15\n80000110 - odd.asm:16\n80000111 - odd.asm:17\n80000112 - odd.asm:18\n80000113 - odd.asm:19\n80000115 - odd.asm:20\n80000116 - odd.asm:21\n80000117 - odd.asm:22\n80000118 again odd.asm:23\n80000118 - odd.asm:23\n
text maps/17.map 80000100 left wrong.asm:3\n80000100 - wrong.asm:3\n80000101 - wrong.asm:4\n80000103 - wrong.asm:5\n80000104 - wrong.asm:6\n80000105 - wrong.asm:7\n80000106 - wrong.asm:8\n80000107 - wrong.asm:9\n80000109 - wrong.asm:10\n8000010A - wrong.asm:11\n8000010B - wrong.asm:12\n8000010C right wrong.asm:13\n8000010C - wrong.asm:13\n8000010D - wrong.asm:14\n8000010F - wrong.asm:15\n80000110 - wrong.asm:16\n80000111 - wrong.asm:17\n80000112 - wrong.asm:18\n80000113 - wrong.asm:19\n80000115 - wrong.asm:20\n80000116 - wrong.asm:21\n80000117 - wrong.asm:22\n80000118 again wrong.asm:23\n80000118 - wrong.asm:23\n
copy odd.map maps/1.map
copy odd.map maps/3.map
copy odd.map maps/5.map
copy odd.map maps/7.map
copy odd.map maps/9.map
copy odd.map maps/11.map
copy odd.map maps/13.map
copy odd.map maps/15.map
copy odd.map maps/19.map
copy odd.map maps/21.map
copy odd.map maps/23.map
copy odd.map maps/25.map
copy odd.map maps/27.map
copy odd.map maps/29.map
copy odd.map maps/31.map
copy odd.map maps/33.map
copy odd.map maps/35.map
copy odd.map maps/37.map
copy odd.map maps/39.map
copy odd.map maps/41.map
copy odd.map maps/43.map
copy odd.map maps/45.map
copy odd.map maps/47.map
copy odd.map maps/49.map
copy odd.map maps/51.map
copy odd.map maps/53.map
copy odd.map maps/55.map
copy odd.map maps/57.map
copy odd.map maps/59.map
copy odd.map maps/61.map
copy odd.map maps/63.map
tpnet waits device --map maps >named
ends named waits elsewhere\nboth send: node 16 link 1 waits for node 17 link 0\ncycle: nodes 16 17\n
has named node 16 out 1 sends left 1 since 16 process 80000201 at 80000106 after right+5 (even.asm:7) to node 17 link 0: both send\n
has named node 17 out 0 sends left 1 since 17 process 80000201 at 80000106 after left+5 (wrong.asm:7) to node 16 link 1: both send\n
tpnet waits device --map maps --json >json
has json "process":2147484161,"since":17,"at":2147483910,"label":"left","offset":5,"place":"wrong.asm:7","other":{"node":16,"link":1},"why":"both send"}
tpnet waits device --map maps --dot >dot
has dot \n  node17 -> node16 [color=red label="0 sends since 17: both send, left+5 (wrong.asm:7)"];\n

story refused
# Of a file that is no device nothing is printed; the words are tested as those of other commands. --dot and --json don't go together, and a view
# without addresses takes no map.
text device none
tpnet waits device
tpnet waits device --dot
tpnet waits 2>err
tpnet waits device --dot --json 2>err
tpnet waits device --map 2>err
tpnet waits device --map m --map m 2>err
tpnet image device 0 --map m 2>err

story maps
# A map names an address by the nearest label at or below it and by the place of the nearest row. A node's own map counts, if it says something.
text net.txt node a 4\nnode b 4\nport h\nwire a.1 b.0\nwire a.0 h\n
image a.img 11 24 F2 55 41 F7
image b.img 11 24 F2 54 41 F7
tpnet format device net.txt . 65536
folder m
text m/all.map 80000100 start a.asm:1\n\n80000105 - a.asm:6\n
tpnet node device 1 --map m >node
has node \nIptr 80000100 start+0 (a.asm:1) Wptr 80000200\n
tpnet node device 1 --map m --json >node
has node ,"iptr":2147483904,"label":"start","offset":0,"place":"a.asm:1","wptr":2147484160,
tpnet run device --turns 6 --workers 1 2>err
tpnet waits device --map m >out
has out node 0 in 1 inputs left 1 since 0 process 80000201 at 80000106 after start+5 (a.asm:6) from node 1 link 0: both input\n
has out node 1 in 0 inputs left 1 since 1 process 80000201 at 80000106 after start+5 (a.asm:6) from node 0 link 1: both input\n
text m/1.map 80000105 - b c.asm:6
tpnet waits device --map=m >out
has out node 1 in 0 inputs left 1 since 1 process 80000201 at 80000106 after (b c.asm:6) from node 0 link 1: both input\n
text m/1.map 80000106 past b.asm:7\n
tpnet waits device --map m >out
has out node 1 in 0 inputs left 1 since 1 process 80000201 at 80000106 from node 0 link 1: both input\n
text m/1.map 80000105 here b.asm:6\n80000105 again b.asm:60\n
tpnet waits device --map m >out
has out node 1 in 0 inputs left 1 since 1 process 80000201 at 80000106 after again+0 (b.asm:60) from node 0 link 1: both input\n
text m/1.map \n
tpnet waits device --map m >out
has out node 1 in 0 inputs left 1 since 1 process 80000201 at 80000106 after start+5 (a.asm:6) from node 0 link 1: both input\n
# A map may be at the end of a link.
remove m/1.map
text b.map 80000105 linked b.asm:600\n
symlink ../b.map m/1.map
tpnet waits device --map m >out
has out node 1 in 0 inputs left 1 since 1 process 80000201 at 80000106 after linked+0 (b.asm:600) from node 0 link 1: both input\n
tpnet waits device --dot

story no_map
# The first line that is none of a map is told, also of a node that the device doesn't have; 64.map is no node's. Nothing is printed then.
text net.txt node a 4\nport h\nwire a.0 h\n
image a.img 11 24 F2 54 41 F7
tpnet format device net.txt . 65536
folder m
tpnet waits device --map m
tpnet waits device --map m --explain
tpnet waits device --map none
tpnet waits device --map n\x1B --explain
# What is no regular file is no map.
symlink /dev/null m/0.map
tpnet waits device --map m --explain
remove m/0.map
text m/64.map 80000100\n
tpnet waits device --map m
text m/63.map 80000100 start a.asm:1\n80000101 - a.asm:\n
tpnet waits device --map m
tpnet node device 0 --map m --explain
remove m/63.map
text m/all.map 8000010 start a.asm:1\n
tpnet waits device --map m
text m/all.map 8000010a start a.asm:1\n
tpnet waits device --map m
text m/all.map 80000100  a.asm:1\n
tpnet waits device --map m
text m/all.map 80000100 start a.asm\n
tpnet waits device --map m
text m/all.map 80000100 start a".asm:1\n
tpnet waits device --map m
text m/all.map 80000100 start a.asm:1\x0D\n
tpnet waits device --map m
text m/all.map 80000100 start \xFF:1\n
tpnet waits device --map m
text m/all.map 80000100 start :1\n
tpnet waits device --map m >out
# What is wrong with the device is told where nothing is wrong with the maps, be it one for all nodes, or one of any node.
copy device fresh
set device 7 03
tpnet waits device --map m --explain
remove m/all.map
text m/0.map 80000100 start a.asm:1\n
tpnet trace device 0 --map m --explain
remove m/0.map
text m/63.map 80000100 start a.asm:1\n
tpnet node device 0 --map m --explain
remove m/63.map
tpnet node device 0 --map m --explain
# The fault that was named is told: it is that of the first node whose map has one.
copy fresh device
text m/all.map 80000100 start a.asm:1\n
text m/0.map 80000100 start a.asm:1\n80000101 - a.asm:2\n80000102 - a.asm:3\n\n80000103 - a.asm\n
text m/5.map x\n
tpnet trace device 0 --map m --explain
remove m/0.map
tpnet trace device 0 --map m --explain
text m/all.map y\n
tpnet trace device 0 --map m --explain
remove m/5.map
tpnet trace device 0 --map m --explain

story hint
# Behind a stream that ended as quiet it is said, where it is asked for, that processes wait for other nodes. One that waits for a port doesn't count,
# nor does a stream that ended otherwise.
text net.txt node a 4\nnode b 4\nport h\nwire a.1 b.0\nwire a.0 h\n
image a.img 11 24 F2 55 41 F7
image b.img 11 24 F2 54 41 F7
tpnet format device net.txt . 65536
copy device again
tpnet run device --stream --until-quiet --discard 0
tpnet run device --stream --until-quiet --discard 0 --explain
tpnet run again --stream --turns 0 --discard 0 --explain
text net.txt node a 4\nport h\nwire a.0 h\n
image a.img 11 24 F2 54 41 F7
tpnet format alone net.txt . 65536
tpnet run alone --stream --until-quiet --discard 0 --explain

# Networks at every limit: of a narrow head, of a wide one, and the first that needs a wide one; topologies at their limits, and behind them.

story narrow
# 16 nodes, one of 256 pages, and 8 ports, in which each link has a wire. An area with room for one entry is the least.
text net.txt node n0 4\nnode n1 4\nnode n2 4\nnode n3 4\nnode n4 4\nnode n5 4\nnode n6 4\nnode n7 4\nnode n8 4\nnode n9 4\nnode n10 4\nnode n11 4\nnode n12 4\nnode n13 4\nnode n14 4\nnode n15 256\nport p0\nwire n0.0 p0\nport p1\nwire n1.0 p1\nport p2\nwire n2.0 p2\nport p3\nwire n3.0 p3\nport p4\nwire n4.0 p4\nport p5\nwire n5.0 p5\nport p6\nwire n6.0 p6\nport p7\nwire n7.0 p7\nwire n0.1 n1.2\nwire n0.3 n8.3\nwire n1.1 n2.2\nwire n1.3 n9.3\nwire n2.1 n3.2\nwire n2.3 n10.3\nwire n3.1 n4.2\nwire n3.3 n11.3\nwire n4.1 n5.2\nwire n4.3 n12.3\nwire n5.1 n6.2\nwire n5.3 n13.3\nwire n6.1 n7.2\nwire n6.3 n14.3\nwire n7.1 n0.2\nwire n7.3 n15.3\nwire n8.1 n9.2\nwire n9.1 n10.2\nwire n10.1 n11.2\nwire n11.1 n12.2\nwire n12.1 n13.2\nwire n13.1 n14.2\nwire n14.1 n15.2\nwire n15.1 n8.2\nwire n8.0 n9.0\nwire n10.0 n11.0\nwire n12.0 n13.0\nwire n14.0 n15.0\n
image n0.img
image n1.img
image n2.img
image n3.img
image n4.img
image n5.img
image n6.img
image n7.img
image n8.img
image n9.img
image n10.img
image n11.img
image n12.img
image n13.img
image n14.img
image n15.img
cut n15.img 262316
set n15.img 2 00 01
tpnet format device net.txt . 399285
tpnet format device net.txt . 399286
length device
show device 7 3
tpnet recover device
tpnet show device >shown
starts shown nodes 16 ports 8 area 
has shown \nnode 15 halt 0\n
ends shown \nport 7 taken 0 pending 0 confirmed 0 unconfirmed 0\n
# What the first and the last of them are, and one behind it.
tpnet node device 15 >node
starts node node 15 pages 256 halt 0 runs\n
tpnet node device 16 2>err
tpnet port device 7
tpnet port device 8 2>err
tpnet run device --turns 0 --port 7 --spare 4
tpnet run device --turns 0 --port 8 2>err
tpnet run device --turns 0 --port 7 --spare 5 2>err
tpnet compact device

story largest
# 64 nodes, one of 1,024 pages, and 8 ports, in which each link has a wire.
text net.txt node n0 4\nnode n1 4\nnode n2 4\nnode n3 4\nnode n4 4\nnode n5 4\nnode n6 4\nnode n7 4\nnode n8 4\nnode n9 4\nnode n10 4\nnode n11 4\nnode n12 4\nnode n13 4\nnode n14 4\nnode n15 4\nnode n16 4\nnode n17 4\nnode n18 4\nnode n19 4\nnode n20 4\nnode n21 4\nnode n22 4\nnode n23 4\nnode n24 4\nnode n25 4\nnode n26 4\nnode n27 4\nnode n28 4\nnode n29 4\nnode n30 4\nnode n31 4\nnode n32 4\nnode n33 4\nnode n34 4\nnode n35 4\nnode n36 4\nnode n37 4\nnode n38 4\nnode n39 4\nnode n40 4\nnode n41 4\nnode n42 4\nnode n43 4\nnode n44 4\nnode n45 4\nnode n46 4\nnode n47 4\nnode n48 4\nnode n49 4\nnode n50 4\nnode n51 4\nnode n52 4\nnode n53 4\nnode n54 4\nnode n55 4\nnode n56 4\nnode n57 4\nnode n58 4\nnode n59 4\nnode n60 4\nnode n61 4\nnode n62 4\nnode n63 1024\nport p0\nwire n0.0 p0\nport p1\nwire n1.0 p1\nport p2\nwire n2.0 p2\nport p3\nwire n3.0 p3\nport p4\nwire n4.0 p4\nport p5\nwire n5.0 p5\nport p6\nwire n6.0 p6\nport p7\nwire n7.0 p7\nwire n0.1 n1.2\nwire n1.1 n2.2\nwire n2.1 n3.2\nwire n3.1 n4.2\nwire n4.1 n5.2\nwire n5.1 n6.2\nwire n6.1 n7.2\nwire n7.1 n8.2\nwire n8.1 n9.2\nwire n9.1 n10.2\nwire n10.1 n11.2\nwire n11.1 n12.2\nwire n12.1 n13.2\nwire n13.1 n14.2\nwire n14.1 n15.2\nwire n15.1 n16.2\nwire n16.1 n17.2\nwire n17.1 n18.2\nwire n18.1 n19.2\nwire n19.1 n20.2\nwire n20.1 n21.2\nwire n21.1 n22.2\nwire n22.1 n23.2\nwire n23.1 n24.2\nwire n24.1 n25.2\nwire n25.1 n26.2\nwire n26.1 n27.2\nwire n27.1 n28.2\nwire n28.1 n29.2\nwire n29.1 n30.2\nwire n30.1 n31.2\nwire n31.1 n32.2\nwire n32.1 n33.2\nwire n33.1 n34.2\nwire n34.1 n35.2\nwire n35.1 n36.2\nwire n36.1 n37.2\nwire n37.1 n38.2\nwire n38.1 n39.2\nwire n39.1 n40.2\nwire n40.1 n41.2\nwire n41.1 n42.2\nwire n42.1 n43.2\nwire n43.1 n44.2\nwire n44.1 n45.2\nwire n45.1 n46.2\nwire n46.1 n47.2\nwire n47.1 n48.2\nwire n48.1 n49.2\nwire n49.1 n50.2\nwire n50.1 n51.2\nwire n51.1 n52.2\nwire n52.1 n53.2\nwire n53.1 n54.2\nwire n54.1 n55.2\nwire n55.1 n56.2\nwire n56.1 n57.2\nwire n57.1 n58.2\nwire n58.1 n59.2\nwire n59.1 n60.2\nwire n60.1 n61.2\nwire n61.1 n62.2\nwire n62.1 n63.2\nwire n63.1 n0.2\nwire n0.3 n32.3\nwire n1.3 n33.3\nwire n2.3 n34.3\nwire n3.3 n35.3\nwire n4.3 n36.3\nwire n5.3 n37.3\nwire n6.3 n38.3\nwire n7.3 n39.3\nwire n8.3 n40.3\nwire n9.3 n41.3\nwire n10.3 n42.3\nwire n11.3 n43.3\nwire n12.3 n44.3\nwire n13.3 n45.3\nwire n14.3 n46.3\nwire n15.3 n47.3\nwire n16.3 n48.3\nwire n17.3 n49.3\nwire n18.3 n50.3\nwire n19.3 n51.3\nwire n20.3 n52.3\nwire n21.3 n53.3\nwire n22.3 n54.3\nwire n23.3 n55.3\nwire n24.3 n56.3\nwire n25.3 n57.3\nwire n26.3 n58.3\nwire n27.3 n59.3\nwire n28.3 n60.3\nwire n29.3 n61.3\nwire n30.3 n62.3\nwire n31.3 n63.3\nwire n8.0 n9.0\nwire n10.0 n11.0\nwire n12.0 n13.0\nwire n14.0 n15.0\nwire n16.0 n17.0\nwire n18.0 n19.0\nwire n20.0 n21.0\nwire n22.0 n23.0\nwire n24.0 n25.0\nwire n26.0 n27.0\nwire n28.0 n29.0\nwire n30.0 n31.0\nwire n32.0 n33.0\nwire n34.0 n35.0\nwire n36.0 n37.0\nwire n38.0 n39.0\nwire n40.0 n41.0\nwire n42.0 n43.0\nwire n44.0 n45.0\nwire n46.0 n47.0\nwire n48.0 n49.0\nwire n50.0 n51.0\nwire n52.0 n53.0\nwire n54.0 n55.0\nwire n56.0 n57.0\nwire n58.0 n59.0\nwire n60.0 n61.0\nwire n62.0 n63.0\n
image n0.img
image n1.img
image n2.img
image n3.img
image n4.img
image n5.img
image n6.img
image n7.img
image n8.img
image n9.img
image n10.img
image n11.img
image n12.img
image n13.img
image n14.img
image n15.img
image n16.img
image n17.img
image n18.img
image n19.img
image n20.img
image n21.img
image n22.img
image n23.img
image n24.img
image n25.img
image n26.img
image n27.img
image n28.img
image n29.img
image n30.img
image n31.img
image n32.img
image n33.img
image n34.img
image n35.img
image n36.img
image n37.img
image n38.img
image n39.img
image n40.img
image n41.img
image n42.img
image n43.img
image n44.img
image n45.img
image n46.img
image n47.img
image n48.img
image n49.img
image n50.img
image n51.img
image n52.img
image n53.img
image n54.img
image n55.img
image n56.img
image n57.img
image n58.img
image n59.img
image n60.img
image n61.img
image n62.img
image n63.img
cut n63.img 1048748
set n63.img 2 00 04
tpnet check net.txt .
tpnet format device net.txt . 1409781
tpnet format device net.txt . 1409782
length device
show device 7 3
# The pages of the last node; where its links lead: link 0 to link 0 of node 62, link 3 to link 3 of node 31; and the first byte behind.
show device 150 2
show device 656 8
show device 664 1
tpnet recover device
tpnet recover device --workers 16
tpnet show device >shown
starts shown nodes 64 ports 8 area 1409782
has shown \nnode 63 halt 0\n
ends shown \nport 7 taken 0 pending 0 confirmed 0 unconfirmed 0\n
tpnet node device 63 >node
starts node node 63 pages 1024 halt 0 runs\n
tpnet node device 64 2>err
tpnet run device --turns 0 --port 7 --spare 4
tpnet compact device
# In a larger one each node makes an entry, in which the odd nodes from 9 on take the letters of their neighbours too, each port takes one, and
# that of port 7 is confirmed.
tpnet format device net.txt . 1729750
tpnet run device --turns 65 --workers 1 --quantum 16 --port 7 --every 4294967295
tpnet recover device --workers 3
tpnet compact device
tpnet recover device
# The last node halts at its second instruction.
image n63.img 40 30
cut n63.img 1048748
set n63.img 2 00 04
tpnet format device net.txt . 1729750
tpnet run device --turns 65 --workers 1 --quantum 16 --every 4294967295 --explain

story wide
# 17 nodes are the first network that needs a wide head: where the fields of it stand, and the front of its first area, which has turns.
text net.txt node n0 4\nnode n1 4\nnode n2 4\nnode n3 4\nnode n4 4\nnode n5 4\nnode n6 4\nnode n7 4\nnode n8 4\nnode n9 4\nnode n10 4\nnode n11 4\nnode n12 4\nnode n13 4\nnode n14 4\nnode n15 4\nnode n16 4\nport h\nwire n16.0 h\nwire n16.3 n0.0\n
image n0.img
image n1.img
image n2.img
image n3.img
image n4.img
image n5.img
image n6.img
image n7.img
image n8.img
image n9.img
image n10.img
image n11.img
image n12.img
image n13.img
image n14.img
image n15.img
image n16.img
tpnet check net.txt .
tpnet format device net.txt . 87721
tpnet format device net.txt . 87722
length device
show device 0 16
show device 16 8
show device 56 4
show device 152 2
show device 280 2
show device 286 2
show device 1024 21
show device 82089 1
show device 88746 1
part device image 1045 4268
equal image n0.img
# The journal has room for one entry, which is node 0's; once it is empty node 1 makes one, as node 0 waits for an Ack.
tpnet run device --turns 18 --workers 1 --quantum 16 --every 4294967295
tpnet journal device
tpnet status device
tpnet compact device
show device 88746 21
tpnet run device --turns 18 --workers 1 --quantum 16 --every 4294967295
tpnet journal device
# In a larger one each node makes a run, node 16 in the turn in which it takes the letter of node 0; the port takes that of node 16, and it is
# confirmed.
tpnet format device net.txt . 200000
length device
tpnet run device --turns 18 --workers 1 --quantum 16 --every 4294967295
tpnet journal device --from 15
# Then node 16 takes its Ack and goes round; the checkpoint has all of it.
tpnet run device --turns 18 --workers 1 --quantum 16 --every 4294967295
tpnet compact device
show device 201024 21
tpnet show device
tpnet run device --turns 18 --workers 1 --quantum 16 --every 4294967295
tpnet recover device --workers 16
tpnet backup device copy
length copy
tpnet recover copy

story texts
# Topologies at their limits, and behind them. A node of 4 pages is the smallest, one of 1,024 the largest; one of 257 needs a wide head.
image a.img
text net.txt node a 3\nport h\n
tpnet check net.txt .
text net.txt node a 1025\nport h\n
tpnet check net.txt .
cut a.img 262316
set a.img 2 00 01
text net.txt node a 256\nport h\n
tpnet check net.txt .
cut a.img 263340
set a.img 2 01 01
text net.txt node a 257\nport h\n
tpnet check net.txt .
cut a.img 1048748
set a.img 2 00 04
text net.txt node a 1024\nport h\n
tpnet check net.txt .
# A name of 16 letters, and one of 17.
image abcdefghijklmnop.img
text net.txt port h\nnode abcdefghijklmnop 4\nwire abcdefghijklmnop.3 h\n
tpnet check net.txt .
text net.txt port h\nnode abcdefghijklmnopq 4\n
tpnet check net.txt .
# A 65th node, and a 9th port; a malformed line of that comes first. (Of 64 nodes the first image is looked for, and isn't there.)
text net.txt port z\nnode x0 4\nnode x1 4\nnode x2 4\nnode x3 4\nnode x4 4\nnode x5 4\nnode x6 4\nnode x7 4\nnode x8 4\nnode x9 4\nnode x10 4\nnode x11 4\nnode x12 4\nnode x13 4\nnode x14 4\nnode x15 4\nnode x16 4\nnode x17 4\nnode x18 4\nnode x19 4\nnode x20 4\nnode x21 4\nnode x22 4\nnode x23 4\nnode x24 4\nnode x25 4\nnode x26 4\nnode x27 4\nnode x28 4\nnode x29 4\nnode x30 4\nnode x31 4\nnode x32 4\nnode x33 4\nnode x34 4\nnode x35 4\nnode x36 4\nnode x37 4\nnode x38 4\nnode x39 4\nnode x40 4\nnode x41 4\nnode x42 4\nnode x43 4\nnode x44 4\nnode x45 4\nnode x46 4\nnode x47 4\nnode x48 4\nnode x49 4\nnode x50 4\nnode x51 4\nnode x52 4\nnode x53 4\nnode x54 4\nnode x55 4\nnode x56 4\nnode x57 4\nnode x58 4\nnode x59 4\nnode x60 4\nnode x61 4\nnode x62 4\nnode x63 4\n
tpnet check net.txt .
text net.txt port z\nnode x0 4\nnode x1 4\nnode x2 4\nnode x3 4\nnode x4 4\nnode x5 4\nnode x6 4\nnode x7 4\nnode x8 4\nnode x9 4\nnode x10 4\nnode x11 4\nnode x12 4\nnode x13 4\nnode x14 4\nnode x15 4\nnode x16 4\nnode x17 4\nnode x18 4\nnode x19 4\nnode x20 4\nnode x21 4\nnode x22 4\nnode x23 4\nnode x24 4\nnode x25 4\nnode x26 4\nnode x27 4\nnode x28 4\nnode x29 4\nnode x30 4\nnode x31 4\nnode x32 4\nnode x33 4\nnode x34 4\nnode x35 4\nnode x36 4\nnode x37 4\nnode x38 4\nnode x39 4\nnode x40 4\nnode x41 4\nnode x42 4\nnode x43 4\nnode x44 4\nnode x45 4\nnode x46 4\nnode x47 4\nnode x48 4\nnode x49 4\nnode x50 4\nnode x51 4\nnode x52 4\nnode x53 4\nnode x54 4\nnode x55 4\nnode x56 4\nnode x57 4\nnode x58 4\nnode x59 4\nnode x60 4\nnode x61 4\nnode x62 4\nnode x63 4\nnode x64 4\n
tpnet check net.txt .
text net.txt port z\nnode x0 4\nnode x1 4\nnode x2 4\nnode x3 4\nnode x4 4\nnode x5 4\nnode x6 4\nnode x7 4\nnode x8 4\nnode x9 4\nnode x10 4\nnode x11 4\nnode x12 4\nnode x13 4\nnode x14 4\nnode x15 4\nnode x16 4\nnode x17 4\nnode x18 4\nnode x19 4\nnode x20 4\nnode x21 4\nnode x22 4\nnode x23 4\nnode x24 4\nnode x25 4\nnode x26 4\nnode x27 4\nnode x28 4\nnode x29 4\nnode x30 4\nnode x31 4\nnode x32 4\nnode x33 4\nnode x34 4\nnode x35 4\nnode x36 4\nnode x37 4\nnode x38 4\nnode x39 4\nnode x40 4\nnode x41 4\nnode x42 4\nnode x43 4\nnode x44 4\nnode x45 4\nnode x46 4\nnode x47 4\nnode x48 4\nnode x49 4\nnode x50 4\nnode x51 4\nnode x52 4\nnode x53 4\nnode x54 4\nnode x55 4\nnode x56 4\nnode x57 4\nnode x58 4\nnode x59 4\nnode x60 4\nnode x61 4\nnode x62 4\nnode x63 4\nnode x64 3\n
tpnet check net.txt .
text net.txt node z 4\nport a\nport b\nport c\nport d\nport e\nport f\nport g\nport h\nport i\n
tpnet check net.txt .

# A trace of an image, with what comes in at its links, with a map, and where it stops.

story echo
# The node inputs a byte at link 0, puts it out there, and begins again. Somebody sends two bytes, each once the one before was acknowledged, and acknowledges
# what comes. With the last one taken it waits for good.
image echo.img 11 24 F2 54 41 F7 24 F2 71 FE 60 04
text in Hi
keep echo.img in
tpnet trace echo.img --in 0=in
stay
# What comes in counts as a step does.
tpnet trace echo.img --in 0=in --steps 1
tpnet trace echo.img --in=0=in --steps 2
# Nobody is at link 0 without it.
tpnet trace echo.img --in 1=in

story two_links
# Bytes come in at links 0 and 3, from link 0 on, before the first step, and are held there, since nobody takes them. The letter is acknowledged.
image a.img
text low L
text high H!
tpnet trace a.img --in 3=high --in 0=low --steps 8

story short_input
# A process wants four bytes, and three come: it waits. With a fourth it goes on, and stops.
image four.img 11 24 F2 54 44 F7 21 F5
text three abc
tpnet trace four.img --in 0=three
text four abcd
tpnet trace four.img --in 0=four

story empty_input
# An empty file sends nothing, and acknowledges.
image a.img
text none
tpnet trace a.img --in 0=none --steps 5
# As does the other end of a link that waits in an image, for a letter that left before; and a byte that is held there keeps others away.
image out.img
set out.img 44 01
set out.img 52 00 00 00 80 01
tpnet trace out.img --in 0=none --steps 1
image held.img
set held.img 109 01
text more x
tpnet trace held.img --in 0=more --steps 1

story until
# It stops before the first instruction, before the third one, and before one that is never reached: then its steps end it, or the node does.
image a.img
tpnet trace a.img --until 80000100
tpnet trace a.img --until 8000010A
tpnet trace a.img --until 8000010B --steps 2
tpnet trace a.img --until 80000000
# Behind the last step that was asked for it is told first.
tpnet trace a.img --until 8000010A --steps 2
# A node that has halted makes no instruction any more.
set a.img 1 01
tpnet trace a.img --until 80000100

story watch
# The word at 80000204 is changed by the second step: one byte of it is enough, and the three bytes before it are others.
image a.img 41 D1 40 D1 21 F5
tpnet trace a.img --watch 80000204
tpnet trace a.img --watch 80000201 --bytes 4
tpnet trace a.img --watch 80000201 --bytes 3 --steps 2
# A write that leaves the bytes as they were is no change.
image same.img 40 D1 21 F5
tpnet trace same.img --watch 80000204 --steps 2
# A byte that comes in changes memory, too; and bytes outside memory never change.
image four.img 11 24 F2 54 44 F7 21 F5
text two ab
tpnet trace four.img --in 0=two --watch 80000205 --bytes 1
tpnet trace a.img --watch 80000FFE --steps 1
tpnet trace a.img --watch FFFFFFFF --bytes 1024 --steps 1
# With both, the first stop that comes.
tpnet trace a.img --watch 80000204 --until 80000101
tpnet trace a.img --watch 80000204 --until 80000102

story labels
# A map names addresses, and its labels are places.
image a.img
text a.map 80000100 start a.asm:3\n80000100 - a.asm:4\n80000108 send a.asm:5\n80000108 - a.asm:5\n80000200 main a.asm:9\n
tpnet trace a.img --map a.map
tpnet trace a.img --map a.map --until send
tpnet trace a.img --map a.map --until start --watch main
# An address needs no map, and a word of eight such digits is no label.
tpnet trace a.img --map a.map --until 80000108 --steps 1
text hex.map 80000200 80000108 a.asm:9\n
tpnet trace a.img --map hex.map --until 80000108 --steps 1

story device_map
# Of a device the map is the node's own, or the one of each node that has none.
text net.txt node a 4\nnode b 4\nport h\nwire a.0 h\n
image a.img
image b.img 60 0E
tpnet format device net.txt . 24576
tpnet run device --turns 4 --workers 1 --quantum 2
folder maps
text maps/all.map 80000100 start all.asm:1\n
text maps/0.map 80000108 send a.asm:5\n
tpnet trace device 0 --map maps
tpnet trace device 1 --map maps --to 1
tpnet trace device 1 --map none
# A map without a row is one, too, also if the folder has no other.
folder empty
text empty/1.map
tpnet trace device 1 --map empty --to 1
text maps/0.map oh
tpnet trace device 1 --map maps

story refused
# A label that the map hasn't got, one without a map, and what is none of both.
image a.img
text a.map 80000100 start a.asm:3\n
tpnet trace a.img --map a.map --until send
tpnet trace a.img --until start
tpnet trace a.img --watch 8000010
tpnet trace a.img --map a.map --watch Start
# What is watched begins below memory: the last address before it, and its first one.
tpnet trace a.img --watch 7FFFFFFF --bytes 2
tpnet try a.img --watch 7FFFFFFF
tpnet trace a.img --watch 80000000 --bytes 1 --steps 1
tpnet trace a.img --until ''
# A map with a line that is none of one, and files that aren't there.
text bad.map 80000100 start a.asm:3\n80000104 x\n
tpnet trace a.img --map bad.map
tpnet trace a.img --map bad.map --until send
tpnet trace a.img --map none
tpnet trace a.img --in 0=none
folder f
tpnet trace a.img --in 0=f
# What is said of each, and the way out.
tpnet trace a.img --map bad.map --explain
tpnet trace a.img --map a.map --until send --explain
tpnet trace a.img --watch 7FFFFFFF --explain
tpnet trace a.img --in 0=none --explain
tpnet trace a.img --map none --explain
text in x
tpnet trace a.img --in 0=in --in 3=none --in 2=in --explain
# The explanation is of the fault that was named: it checks in the order of the command, which is said below.
text text.img no image
text low.map 80000100 start a.asm:3\n7FFFFFFF low a.asm:4\n
tpnet trace text.img --map none --in 0=f --explain
tpnet trace absent --map bad.map --in 0=none --explain
tpnet trace text.img --map bad.map --in 0=none --explain
tpnet trace text.img --map bad.map --until stop --explain
tpnet trace text.img --map low.map --until stop --watch low --explain
tpnet trace text.img --map low.map --until stop --watch send --explain
tpnet trace text.img --map low.map --until low --watch stop --explain
tpnet trace text.img --map low.map --until start --watch low --explain
tpnet trace text.img --map low.map --until low --watch start --explain
# A link that is at work is no fault here.
image held.img
set held.img 109 01
tpnet trace held.img --until stop --explain
shut full
tpnet trace held.img --steps 1 --explain
shut
# A file that isn't there is told before a map that is none, a map before a place, and a place before an image that is none.
tpnet trace a.img --map bad.map --in 0=none
tpnet trace text.img --until start
tpnet trace text.img --until 80000100
# Two files for one link, a link that is none, and what is no file of a link.
text in x
tpnet trace a.img --in 0=in --in 0=in
tpnet trace a.img --in 3=in --in 1=in --in 3=in
tpnet trace a.img --in 4=in
tpnet trace a.img --in in
tpnet trace a.img --in 0=
tpnet trace a.img --in 00=in
# Numbers of bytes out of their range, and without what is watched.
tpnet trace a.img --watch 80000100 --bytes 0
tpnet trace a.img --watch 80000100 --bytes 1025
tpnet trace a.img --watch 80000100 --bytes 1024 --steps 1 >out
has out stop steps
tpnet trace a.img --bytes 4
# Options of an image with a device's node, and the other way round.
tpnet trace a.img 0 --in 0=in
tpnet trace a.img 0 --until 80000100
tpnet trace a.img 0 --watch 80000100
tpnet trace a.img 0 --bytes 4

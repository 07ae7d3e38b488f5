# One node alone.

story letter
# The node sends a letter on link 0, waits for its acknowledge and then goes round: the letter alone is printed.
image a.img
image b.img
set b.img 437 42
tpnet try a.img --turns 4
# Of another node it is the letter that stands in its memory.
tpnet try b.img --turns 4
# In no turn it sends nothing.
tpnet try a.img --turns 0
# It goes round for as many turns as there are.
tpnet try a.img --turns=100001
# A node that sends the letter again and again puts one out in each two turns, up to 4,096.
image c.img 27 2F 2F 2F 2F 2F 6F 40 24 41 FE 60 03
tpnet try c.img --turns 8190 >out
length out
tpnet try c.img --turns 8192 >out
length out
tpnet try c.img --turns 8194 >out
length out

story others
# What is no image: a file without a byte, a text, an image with a link at work, one of a later version.
fill empty.img 0 00
text text.img no image
image busy.img
set busy.img 109 01
image later.img
set later.img 0 02
tpnet try empty.img --turns 4
tpnet try text.img --turns 4
tpnet try busy.img --turns 4
tpnet try later.img --turns 4
# A file that is not there can not be read.
tpnet try a.img --turns 4
# Nor is what is no regular file: it might have to be waited for.
tpnet try /dev/null --turns 4
tpnet trace /dev/null

story halted
# A node that loads a word which isn't there halts. Where it did is said with --explain alone.
image a.img 40 30
image b.img
tpnet try a.img --turns 4
tpnet try a.img --turns 1 --explain
# In its first turn it hasn't halted yet where it has none.
tpnet try a.img --turns 0 --explain
# One that goes round hasn't halted.
tpnet try b.img --turns 4 --explain

story shut
# Where standard output can't be written the letter is lost, and that is said.
image a.img
shut gone
tpnet try a.img --turns 4

story steps
# Without --turns the node makes steps, and nobody is at its links. Each byte that goes out is printed as a trace prints it; then why it ends, and the state.
image a.img
keep a.img
tpnet try a.img
stay
# One step, those before the letter, the one that sends it, and as many as there may be.
tpnet try a.img --steps 1
tpnet try a.img --steps 2
tpnet try a.img --steps=3
tpnet try a.img --steps 4294967295
tpnet try a.img --steps 0
tpnet try a.img --steps 4294967296
# A node that goes round makes 100, unless another number is given.
image b.img 60 0E
tpnet try b.img --steps 99
tpnet try b.img
tpnet try b.img --steps 101
# One that halts, and one that has nothing to do.
image c.img 40 30
tpnet try c.img
image d.img 21 F5
tpnet try d.img
# An image with a link at work is one of a node, too. A text is none, and a later version is none.
set a.img 109 01
tpnet try a.img
text text.img no image
tpnet try text.img
set b.img 0 02
tpnet try b.img
tpnet try none.img
tpnet try /dev/null
# With its turns it makes no steps by number, and nobody is at its other links.
tpnet try c.img --turns 4 --steps 4 2>err
empty err
tpnet try c.img --turns 4 --in 1=in 2>err
empty err
tpnet try c.img --turns 4 --map a.map 2>err
empty err
tpnet try c.img --turns 4 --until 80000100 2>err
empty err
tpnet try c.img --turns 4 --watch 80000100 2>err
empty err
tpnet try c.img --turns 4 --watch 80000100 --bytes 4 2>err
empty err
tpnet try c.img --bytes 4

story steps_in
# The node inputs a byte at link 0, puts it out there, and begins again. Somebody is there, sends two bytes, and acknowledges what comes.
image echo.img 11 24 F2 54 41 F7 24 F2 71 FE 60 04
text in Hi
keep echo.img in
tpnet try echo.img --in 0=in
stay
# What comes in counts as a step does: the second byte goes out with the 21st, and neither an acknowledge nor a byte that comes in is printed.
tpnet try echo.img --in 0=in --steps 20
tpnet try echo.img --in 0=in --steps 21
# It waits for its first byte if nobody is at link 0, and for good after an empty file.
tpnet try echo.img --in 1=in
text none
tpnet try echo.img --in 0=none
# A message of two bytes: the second one goes out as the first is acknowledged, and not if nobody is there.
image two.img 11 24 F2 42 FB 21 F5
set two.img 688 48 69
tpnet try two.img --in 0=none
tpnet try two.img
# At link 3, too.
image three.img 11 24 F2 53 42 FB 21 F5
set three.img 688 48 69
tpnet try three.img --in 3=none --in 0=in

story steps_stop
# It stops before the first instruction, before the third one, and at its steps or at the node before one that is never reached.
image a.img
tpnet try a.img --until 80000100
tpnet try a.img --until 8000010A
tpnet try a.img --until 8000010A --steps 2
tpnet try a.img --until 8000010A --steps 1
tpnet try a.img --until 8000010B
# It stops after the step that changes the word at 80000204, by each byte of it and by no other.
image w.img 41 D1 40 D1 21 F5
tpnet try w.img --watch 80000204
tpnet try w.img --watch 80000201 --bytes 4
tpnet try w.img --watch 80000201 --bytes 3 --steps 2
# Of both stops it tells the one that comes first.
tpnet try w.img --watch 80000204 --until 80000102
tpnet try w.img --watch 80000204 --until 80000101
# A map names places and addresses.
text a.map 80000100 start a.asm:3\n80000108 send a.asm:5\n80000200 main a.asm:9\n
tpnet try a.img --map a.map
tpnet try a.img --map a.map --until send --watch main

story steps_refused
# A label that the map hasn't got, one without a map, and what is none of both; a map with a line that is none, and files that aren't there.
image a.img
text a.map 80000100 start a.asm:3\n
text bad.map 80000100 start a.asm:3\n80000104 x\n
tpnet try a.img --map a.map --until send
tpnet try a.img --until start
tpnet try a.img --watch 8000010
tpnet try a.img --map bad.map
tpnet try a.img --map none
tpnet try a.img --in 0=none
# A file that isn't there is told before a map that is none, a map before a place, and a place before an image that is none.
text text.img no image
tpnet try a.img --map bad.map --in 0=none
tpnet try none.img --map bad.map --until start
tpnet try a.img --map bad.map --until send
tpnet try text.img --until start
tpnet try text.img --until 80000100
# What is said of each, and the way out. Of a node that has halted nothing more is said.
tpnet try a.img --map bad.map --explain
tpnet try a.img --map a.map --until send --explain
tpnet try a.img --in 0=none --explain
image c.img 40 30
tpnet try c.img --explain
# Two files for one link, a link that is none, and numbers of bytes out of their range.
text in x
tpnet try a.img --in 0=in --in 0=in
tpnet try a.img --in 3=in --steps 1
tpnet try a.img --in 4=in
tpnet try a.img --watch 80000100 --bytes 0
tpnet try a.img --watch 80000100 --bytes 1 --steps 1
tpnet try a.img --watch 80000100 --bytes 1024 --steps 1 >out
has out stop steps
tpnet try a.img --watch 80000100 --bytes 1025
# Standard output that can't be written.
shut gone
tpnet try a.img
shut

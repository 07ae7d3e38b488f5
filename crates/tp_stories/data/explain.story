# What --explain says behind the line of a refusal: the line stays as it is alone, and what follows has these words.

story damaged
# Bytes over a place of the device of one node with a group, and three commands that open it.
text net.txt node a 4\nport h\nwire a.0 h\n
image a.img
tpnet format device net.txt . 16384
set device 13033 A5 00 04 00 00 00 00 00 00 00 00 00 00 00 00 00
set device 13049 01 00 03 00 00 00 00 00 00 00 00 00 00 00 00 00
set device 13065 02 01 00 00 41 00 00 00 01 00 00 00 00 00 00 00
set device 13081 02 02 04 00 00 00 00 00 02 00 00 00 00 00 00 00
set device 13097 01 00 10 00 00 00 00 00 03 00 00 00 00 00 00 00
set device 13113 00
copy device grown
copy grown device
set device 0 55
tpnet recover device
tpnet recover device --explain
tpnet show device
tpnet show device --explain
tpnet journal device
tpnet journal device --explain
copy grown device
set device 6 01
tpnet recover device --explain
copy grown device
set device 7 09
tpnet recover device
tpnet recover device --explain
tpnet show device
tpnet journal device
copy grown device
set device 10 01
tpnet recover device
tpnet recover device --explain
tpnet show device
tpnet journal device
copy grown device
set device 20 01
tpnet recover device
tpnet recover device --explain
tpnet show device
tpnet journal device
copy grown device
set device 512 00
tpnet recover device
tpnet recover device --explain
tpnet show device
tpnet journal device
copy grown device
set device 521 DD
tpnet recover device
tpnet recover device --explain
tpnet show device
tpnet journal device
copy grown device
set device 573 02
tpnet recover device
tpnet recover device --explain
tpnet show device
tpnet journal device
copy grown device
set device 541 03
tpnet recover device
tpnet recover device --explain
tpnet show device
tpnet journal device
copy grown device
set device 574 03
tpnet recover device
tpnet recover device --explain
tpnet show device
tpnet journal device
copy grown device
set device 4801 03
tpnet recover device
tpnet recover device --explain
tpnet show device
tpnet journal device
copy grown device
set device 4837 01
tpnet recover device
tpnet recover device --explain
tpnet show device
tpnet journal device
copy grown device
set device 4840 11
tpnet recover device
tpnet recover device --explain
tpnet show device
tpnet journal device
copy grown device
set device 13069 42
tpnet recover device
tpnet recover device --explain
tpnet show device
tpnet journal device
# A device that is not there.
tpnet show nowhere
tpnet show nowhere --explain

story format
# What format and check refuse.
text net.txt node a 4\nport h\nwire a.0 h\n
image a.img
tpnet format device net.txt . 16384
tpnet format device net.txt . 13033
tpnet format device net.txt . 13033 --explain
tpnet format --new device net.txt . 16384
tpnet format --new device net.txt . 16384 --explain
folder scratch
tpnet format --new scratch net.txt . 16384
tpnet format --new scratch net.txt . 16384 --explain
tpnet format scratch net.txt . 16384 --explain
tpnet format scratch net.txt . 0 --explain
tpnet format scratch absent . 16384 --explain
tpnet format nowhere/device net.txt . 16384
tpnet format nowhere/device net.txt . 16384 --explain
text net.txt node a 4\n
tpnet format device net.txt . 16384
tpnet format device net.txt . 16384 --explain
tpnet check net.txt .
tpnet check net.txt . --explain
text net.txt node a 4\nport h\nwire a.0 h\n
text net.txt node a 4\nport h\nwire a.4 h\n
tpnet format device net.txt . 16384
tpnet format device net.txt . 16384 --explain
tpnet check net.txt .
tpnet check net.txt . --explain
text net.txt node a 4\nport h\nwire a.0 h\n
text net.txt \xFF\n
tpnet format device net.txt . 16384
tpnet format device net.txt . 16384 --explain
tpnet check net.txt .
tpnet check net.txt . --explain
text net.txt node a 4\nport h\nwire a.0 h\n
text net.txt node A 4\n
tpnet format device net.txt . 16384
tpnet format device net.txt . 16384 --explain
tpnet check net.txt .
tpnet check net.txt . --explain
text net.txt node a 4\nport h\nwire a.0 h\n
text net.txt node a 04\n
tpnet format device net.txt . 16384
tpnet format device net.txt . 16384 --explain
tpnet check net.txt .
tpnet check net.txt . --explain
text net.txt node a 4\nport h\nwire a.0 h\n
text net.txt port g\nport h\nwire h g\n
tpnet format device net.txt . 16384
tpnet format device net.txt . 16384 --explain
tpnet check net.txt .
tpnet check net.txt . --explain
text net.txt node a 4\nport h\nwire a.0 h\n
text net.txt node a 4 \n
tpnet format device net.txt . 16384
tpnet format device net.txt . 16384 --explain
tpnet check net.txt .
tpnet check net.txt . --explain
text net.txt node a 4\nport h\nwire a.0 h\n
text net.txt node a 4\nport h\nwire a.0 h\nwire a.0 a.1\n
tpnet format device net.txt . 16384
tpnet format device net.txt . 16384 --explain
tpnet check net.txt .
tpnet check net.txt . --explain
text net.txt node a 4\nport h\nwire a.0 h\n
text net.txt node a 4\nwire a.0 b.1\nport h\n
tpnet format device net.txt . 16384
tpnet format device net.txt . 16384 --explain
tpnet check net.txt .
tpnet check net.txt . --explain
text net.txt node a 4\nport h\nwire a.0 h\n
text net.txt node a 4\nnode b 4\nport h\n
tpnet format device net.txt . 16384
tpnet format device net.txt . 16384 --explain
tpnet check net.txt .
tpnet check net.txt . --explain
text net.txt node a 4\nport h\nwire a.0 h\n
text net.txt node a 5\nport h\n
tpnet format device net.txt . 16384
tpnet format device net.txt . 16384 --explain
tpnet check net.txt .
tpnet check net.txt . --explain
text net.txt node a 4\nport h\nwire a.0 h\n
text a.img no image
tpnet format device net.txt . 16384
tpnet format device net.txt . 16384 --explain
tpnet check net.txt .
tpnet check net.txt . --explain
tpnet try a.img --turns 4
tpnet try a.img --turns 4 --explain
tpnet format device net.txt . 13033 --explain
# Of two images the first bad one is told, by its node's pages.
text net.txt node a 4\nnode b 5\nport h\n
image b.img
tpnet check net.txt . --explain
image a.img
tpnet check net.txt . --explain
set b.img 2 06
tpnet check net.txt . --explain

story malformed
# Which rule a malformed line of a topology breaks, and by which word: each rule once at least. The first one is told of several.
text net.txt nod a 4\nport h\n
tpnet check net.txt . --explain
text net.txt Node a 4\nport h\n
tpnet check net.txt . --explain
text net.txt node a\nport h\n
tpnet check net.txt . --explain
text net.txt node a 4 # left\nport h\n
tpnet check net.txt . --explain
text net.txt node a 4\nport\n
tpnet check net.txt . --explain
text net.txt node a 4\nport h 0\n
tpnet check net.txt . --explain
text net.txt node a 4\nport h\nwire a.0\n
tpnet check net.txt . --explain
text net.txt node a 4\nport h\nwire a.0 h a.1\n
tpnet check net.txt . --explain
text net.txt  node a 4\nport h\n
tpnet check net.txt . --explain
text net.txt node a 4\nport h \x0D\n
tpnet check net.txt . --explain
text net.txt node a\x094\nport h\n
tpnet check net.txt . --explain
text net.txt node a 4\x0D\x0D\nport h\n
tpnet check net.txt . --explain
text net.txt node 1a 4\nport h\n
tpnet check net.txt . --explain
text net.txt node a_1 4\nport h\n
tpnet check net.txt . --explain
text net.txt node abcdefghijklmnopq 4\nport h\n
tpnet check net.txt . --explain
text net.txt node a 4\nport h.0\n
tpnet check net.txt . --explain
text net.txt node a 4\nport a\n
tpnet check net.txt . --explain
text net.txt port h\nnode a 4\nnode h 4\n
tpnet check net.txt . --explain
text net.txt node a four\nport h\n
tpnet check net.txt . --explain
text net.txt node a +4\nport h\n
tpnet check net.txt . --explain
text net.txt node a 3\nport h\n
tpnet check net.txt . --explain
text net.txt node a 1025\nport h\n
tpnet check net.txt . --explain
text net.txt node a 99999999999999999999\nport h\n
tpnet check net.txt . --explain
text net.txt node a 4\nport h\nwire a.4 h\n
tpnet check net.txt . --explain
text net.txt node a 4\nport h\nwire h a.00\n
tpnet check net.txt . --explain
text net.txt node a 4\nport h\nwire .0 h\n
tpnet check net.txt . --explain
text net.txt node a 4\nport h\nwire A.0 h\n
tpnet check net.txt . --explain
text net.txt node a 4\nport h\nwire a.0 h.0\n
tpnet check net.txt . --explain
text net.txt node a 4\nport h\nwire a h\n
tpnet check net.txt . --explain
text net.txt port g\nport h\nwire g h\n
tpnet check net.txt . --explain
text net.txt node a 4\x0D\nport h\x0D\nwire a.0 h.0\x0D\n
tpnet check net.txt . --explain
text net.txt node a 4\x0D\nport h\x0D\nwire a.0 h\x0D\nwire a.0 a.1\x0D\nwire a.2 a.3\x0D\n
tpnet check net.txt . --explain
text net.txt node a 4\x0D\nwire a.0 b.0\x0D\nnode b 4\x0D\n
tpnet check net.txt . --explain
text net.txt node a 4\nport h\nport i\nport j\nport k\nport l\nport m\nport n\nport o\nport p\n
tpnet check net.txt . --explain
# Of two rules the first one is told: of spaces, of the words' number, then of each word in order, and of what lines above say at last.
text net.txt  nod a 4\nport h\n
tpnet check net.txt . --explain
text net.txt node A\nport h\n
tpnet check net.txt . --explain
text net.txt node A 3\nport h\n
tpnet check net.txt . --explain
text net.txt node a 4\nnode a 3\nport h\n
tpnet check net.txt . --explain
text net.txt node a 4\nport h\nwire A.4 h\n
tpnet check net.txt . --explain
text net.txt node a 4\nport h\nwire A.0 b.9\n
tpnet check net.txt . --explain
text net.txt node a 4\nport h\nwire a h.4\n
tpnet check net.txt . --explain
text net.txt node a 4\nport h\nwire a h.1\n
tpnet check net.txt . --explain
# What is just right breaks no rule: the line has another fault.
text net.txt node  a 03\nport h\n
tpnet check net.txt . --explain
text net.txt node a-1 3\nport h\n
tpnet check net.txt . --explain
text net.txt node abcdefghijklmnop 3\nport h\n
tpnet check net.txt . --explain
text net.txt node abcdefghijklmnop 4\nport h\nwire abcdefghijklmnop.4 h\n
tpnet check net.txt . --explain
text net.txt port h\nnode h 1024\n
tpnet check net.txt . --explain
text net.txt node a 4\nport h\nwire a.3 h.1\n
tpnet check net.txt . --explain
text net.txt # h is the host\nnode a 4\nport h\nwire a.0 h.0\n
tpnet check net.txt . --explain
text net.txt node ab 4\nport a\nwire ab.0 a.1\n
tpnet check net.txt . --explain
text net.txt node a 4\nport ab\nwire a.0 ab.1\n
tpnet check net.txt . --explain
# And what is wrong by one byte.
text net.txt node aB 4\nport h\n
tpnet check net.txt . --explain
text net.txt node a 4\x7F\nport h\n
tpnet check net.txt . --explain
text net.txt node a 0\nport h\n
tpnet check net.txt . --explain
text net.txt node a 4\nport h\nwire a.0.1 h\n
tpnet check net.txt . --explain
# Where a line at fault is well formed: the last one, which has no end, and the first one.
text net.txt node a 4\nport h\nwire a.0 h\nwire a.0 a.1
tpnet check net.txt . --explain
text net.txt wire a.0 b.1\nnode a 4\nnode b 4\nport h\n
tpnet check net.txt . --explain
fill lines 299 0A
text last node A 4\n
join net.txt lines last
tpnet check net.txt . --explain
# What is missing, where each line is sound; and a file that is no text at all.
text net.txt \n# nothing\n
tpnet check net.txt . --explain
text net.txt # no node\nport h\n
tpnet check net.txt . --explain
text net.txt # no port\nnode a 4\n
tpnet check net.txt . --explain
text net.txt \xFF\xFE\n
tpnet check net.txt . --explain

story on_a_terminal
# Where standard error is a terminal, what --explain says of a refusal stands behind its line, which is as anywhere: unless --no-explain is typed.
text net.txt node a 3\nport h\n
looks 250 stderr
tpnet check net.txt .
tpnet check net.txt . --no-explain
tpnet check net.txt . --explain
# So it is with each kind of command.
tpnet recover net.txt
tpnet run net.txt --turns 1
tpnet run net.txt --stream --discard 0
tpnet run net.txt --stream --discard 0 --no-explain
tpnet stop net.txt
tpnet stop net.txt --no-explain
tpnet backup net.txt copy
tpnet backup net.txt copy --no-explain
held 100
tpnet compact net.txt
tpnet compact net.txt --no-explain
tpnet run net.txt --stream --discard 0
held
# A word behind the dashes is a name.
tpnet recover -- --no-explain
# Where it is none, the name stands alone, whatever standard output is.
looks 250 stdout
tpnet recover net.txt
tpnet run net.txt --stream --discard 0
tpnet recover net.txt --no-explain
# Nodes that have halted are told by --explain alone.
image a.img 40 30
looks 250 stderr
tpnet try a.img --turns 4
tpnet try a.img --turns 4 --no-explain
tpnet try a.img --turns 4 --explain
# Both words are a fault of the words, on a terminal or not, but where help is asked for.
tpnet check net.txt . --explain --no-explain
looks 250
tpnet recover net.txt --no-explain --explain
tpnet run net.txt --stream --discard 0 --explain --no-explain
tpnet stop net.txt --no-explain --explain
tpnet backup net.txt copy --explain --no-explain
tpnet recover --help --explain --no-explain >out
has out --no-explain

story shown_words
# A control character of a word that was typed is shown by its number, wherever the word is: a new line in a name makes none, and a terminal obeys
# none.
text net.txt node a 4\nport h\nwire a.0 h\n
image a.img
tpnet format device net.txt . 16384
tpnet show a\nb --explain
tpnet stop a\x1B[2Jb --explain
tpnet check a\x0Db . --explain
tpnet check net.txt a\x7Fb --explain
tpnet try \xC2\x9B1m --turns 1 --explain
tpnet run device --turns 1 --in a\nb --explain
tpnet run device --stream --turns 1 --out 0=no\nne/out --explain
tpnet run device --stream --turns 1 --discard 0 --in 0=no\nne --explain
tpnet backup device c\nd
tpnet backup device c\nd --explain
# The name of a device is shown so by each line that names it: a full journal's too, whether it can be emptied or has to have its input by pieces.
tpnet format d\x1Bv\ne net.txt . 16384
fill over 106 6D
fill most 105 6D
tpnet run d\x1Bv\ne --turns 0 --in over --explain
tpnet run d\x1Bv\ne --turns 4 --workers 1 --quantum 16 2>err
tpnet run d\x1Bv\ne --turns 0 --in most --explain
# So it is where a file isn't looked at again. This one has a tab in its name.
symlink /dev/null nu	ll
tpnet show nu\x09ll --explain
# Other characters are shown as they are.
tpnet show gr\xC3\xB6\xC3\x9Fe --explain
# So it is where the words ask for nothing.
tpnet fl\ny device 2>err
starts err error: unrecognized subcommand 'fl\x5Cx0Ay'\n
tpnet show device --js\x1Bon 2>err
starts err error: unexpected argument '--js\x5Cx1Bon' found\n
tpnet show device --js\x7Fon 2>err
starts err error: unexpected argument '--js\x5Cx7Fon' found\n
tpnet show device --js\xC2\x9Bon\xC3\xB6 2>err
starts err error: unexpected argument '--js\x5Cx9Bon\xC3\xB6' found\n
tpnet show device a\nb 2>err
starts err error: unexpected argument 'a\x5Cx0Ab' found\n
tpnet run device --stream --discard 0 a\nb 2>err
starts err error: unexpected argument 'a\x5Cx0Ab' found\n

story shown_names
# So it is in each line that says a path. A node hands on a topology into a file with such a name; that is no output of another device, and a new file
# has none of this one's.
text net.txt node a 4\nport from\nport to\nwire a.0 from\nwire a.3 to\n
image a.img 11 24 F2 54 41 F7 11 24 F2 53 41 FB 60 02
tpnet format d\x1Bv net.txt . 65536
tpnet format e\x1Bw net.txt . 65536
tpnet run d\x1Bv --stream --quantum=64 --until-quiet --discard 0 --out 1=o\x1Bt --in 0=net.txt 2>err
tpnet run e\x1Bw --stream --until-quiet --discard 0 --out 1=o\x1Bt --explain
tpnet run d\x1Bv --stream --until-quiet --discard 0 --out 1=n\x1Bw --explain
tpnet run d\x1Bv --stream --until-quiet --discard 0 --discard 1 --in 0=n\x1Bw --explain
# It is no device, image or map, and the empty one is no topology.
tpnet recover o\x1Bt --explain
tpnet try o\x1Bt --turns 1 --explain
tpnet trace a.img --map o\x1Bt --explain
tpnet check n\x1Bw . --explain
tpnet format o\x1Bt o\x1Bt . 16384
# A place that is none, a label below memory, a folder without a map, and a device that is there.
tpnet trace a.img --watch w\x1Bx --explain
text low.map 7FFFFFFC l\xC2\x9B send.asm:1\n
tpnet trace a.img --map low.map --watch l\xC2\x9B --explain
tpnet node d\x1Bv 0 --map no\x1Bne --explain
tpnet format --new d\x1Bv net.txt . 65536 --explain
# What is printed can't be, of a device and of a backup.
shut gone
tpnet show d\x1Bv --explain
tpnet backup d\x1Bv c\x1Bd --explain
shut
# A backup into no folder, onto the device, and where its first name is the device or another one's.
tpnet format p\x1Bt.part net.txt . 65536
tpnet backup d\x1Bv no\x1Bne/copy --explain
tpnet backup d\x1Bv d\x1Bv --explain
tpnet backup p\x1Bt.part p\x1Bt --explain
tpnet backup d\x1Bv p\x1Bt --explain
# Nobody is asked to stop, a request would go over a file, and the one who is asked goes on.
tpnet stop e\x1Bw --explain
tpnet run e\x1Bw --stream --quantum=64 --until-quiet --discard 0 --out 1=d\x1Bv.stop --in 0=net.txt 2>err
held 100
tpnet stop d\x1Bv --explain
tpnet stop e\x1Bw --wait 1 --explain
held
# Two nodes wait for each other. Whichever call fails as another device is formatted over theirs, the old one may be gone.
text net.txt node a 4\nnode b 4\nwire a.0 b.0\nport h\nwire a.3 h\n
image a.img 11 24 F2 54 41 F7
image b.img 11 24 F2 54 41 F7
tpnet format q\x1Bt net.txt . 65536
tpnet run q\x1Bt --stream --until-quiet --discard 0 --explain
sweep alone all 0
tpnet format q\x1Bt net.txt . 65536 --explain >out 2>err
has err \n  A device that was in q\x5Cx1Bt before may be gone: 
end
# A stream's journal is full, and no checkpoint frees it.
text net.txt node a 8\nport h\nwire a.0 h\n
fill a.img 8364 00
set a.img 0 01 00 08 00 00 01 00 80 00 02 00 80
set a.img 24 00 00 00 80 00 00 00 80 00 00 00 80 00 00 00 80 00 02
set a.img 216 00 00 00 80
set a.img 428 11 24 F2 54 41 F7
text in abcdefg
tpnet format f\x1Bl net.txt . 17546
tpnet run f\x1Bl --stream --until-quiet --spare 8 --quantum 1 --every 2 --discard 0 --in 0=in --explain

story run
# What run refuses; the device stays as it was.
text net.txt node a 4\nport h\nwire a.0 h\n
image a.img
tpnet format device net.txt . 16384
set device 13033 A5 00 04 00 00 00 00 00 00 00 00 00 00 00 00 00
set device 13049 01 00 03 00 00 00 00 00 00 00 00 00 00 00 00 00
set device 13065 02 01 00 00 41 00 00 00 01 00 00 00 00 00 00 00
set device 13081 02 02 04 00 00 00 00 00 02 00 00 00 00 00 00 00
set device 13097 01 00 10 00 00 00 00 00 03 00 00 00 00 00 00 00
set device 13113 00
copy device before
fill more 102 6D
tpnet run device --turns=4 --in nowhere
tpnet run device --turns=4 --in nowhere --explain
equal device before
tpnet run nowhere --turns=4
tpnet run nowhere --turns=4 --explain
equal device before
tpnet run net.txt --turns=4
tpnet run net.txt --turns=4 --explain
equal device before
tpnet run device --turns=0 --in a.img
tpnet run device --turns=0 --in a.img --explain
equal device before
tpnet run device --turns=0 --in more
tpnet run device --turns=0 --in more --explain
# Just as much comes of it as an empty journal has room for.
fill most 105 6D
tpnet run device --turns=0 --in most --explain
equal device before
tpnet try /dev/null --turns=4
tpnet try /dev/null --turns=4 --explain
equal device before
folder there
tpnet run device --turns=4 --in there
tpnet run device --turns=4 --in there --explain
# An input that isn't read again may not be the reason: what the device says is told, too.
tpnet run net.txt --turns=4 --in /dev/null --explain
# More comes of it than fits, at another port than the first.
text net.txt node a 4\nport g\nport h\nwire a.0 g\nwire a.3 h\n
tpnet format two net.txt . 32768
tpnet run two --turns 0 --port 1 --in a.img --explain
# Of a port, a node or pages that aren't there nothing more is said.
tpnet run two --turns 0 --port 2 --explain
tpnet run two --turns 0 --spare 5 --explain
tpnet node two 1 --explain
tpnet run two --stream --turns 0 --discard 0 --discard 1 --discard 2 --explain
# Of an input the bytes count that its port hasn't accepted, as many as it has room for. Here node a has taken one of ten, which made 13 entries. With
# one byte more than an empty journal has room for compacting doesn't help; with just as many it does.
image a.img 11 24 F2 57 41 F7 21 F5
tpnet format two net.txt . 32768
fill ten 10 6D
tpnet run two --turns 3 --workers 1 --port 1 --in ten
tpnet status two
fill some 367 6D
tpnet run two --turns 0 --port 1 --in some --explain
fill some 368 6D
tpnet run two --turns 0 --port 1 --in some --explain
fill some 5000 6D
tpnet run two --turns 0 --port 1 --in some --explain
# If it isn't known how many bytes come, each way is told.
text net.txt node a 4\nport h\nwire a.0 h\n
image a.img
tpnet format least net.txt . 13034
tpnet run least --turns 4 --workers 1 --in /dev/null --explain

story unprinted
# Standard output can't be written: what was done is told, where nothing else is wrong.
text net.txt node a 4\nport h\nwire a.0 h\n
image a.img
tpnet format device net.txt . 16384
shut full
tpnet check --help --explain
tpnet check net.txt . --explain
tpnet format least net.txt . 13034 --explain
tpnet show device --explain
tpnet backup device copy --explain
tpnet compact device --explain
copy device other
tpnet run other --turns 4 --workers 1 --quantum 16 --explain
tpnet run device --stream --turns 9 --out 0=- --explain

story slow
# Standard output and standard error take a byte a call, and each call before that is interrupted: all is printed. Where standard output takes none and
# names no fault, nothing is.
text net.txt node a 4\nport h\nwire a.0 h\n
image a.img
tpnet format device net.txt . 16384
copy device fresh
shut slow
tpnet recover device
tpnet show device --json
tpnet status device
tpnet node device 0 --json
tpnet waits device --explain
tpnet check net.txt .
tpnet try a.img --turns 4
tpnet trace a.img --steps 2
tpnet run device --turns 4 --workers 1 --quantum 16
copy fresh device
tpnet run device --stream --turns 4 --workers 1 --quantum 16 --out 0=-
tpnet check --help >out
starts out Reads
tpnet recover net.txt --explain
shut none
tpnet recover device
tpnet node device 0 --json
tpnet trace a.img --steps 2
tpnet try a.img --turns 4 --explain
tpnet check --help
copy fresh device
tpnet run device --turns 4 --workers 1 --quantum 16
copy fresh device
tpnet run device --stream --turns 4 --workers 1 --quantum 16 --out 0=-

story stream
# What run --stream refuses of its ends: what the system said, or the way out.
text net.txt node a 4\nport h\nwire a.0 h\n
image a.img 11 24 F2 54 41 F7 11 24 F2 41 FB 60 03
tpnet format device net.txt . 16384
folder folder
tpnet run device --stream --quantum=64 --turns=9 --explain --out 0=/dev/null >out
tpnet run device --stream --quantum=64 --turns=9 --explain --out 0=nowhere/out >out
tpnet run device --stream --quantum=64 --turns=9 --explain --in 0=folder --discard 0 >out
tpnet run device --stream --quantum=64 --turns=9 --explain --in 0=nowhere --discard 0 >out
# Of words that name one file twice nothing more is said.
tpnet run device --stream --turns=9 --out 0=device --explain

story ports_of_ends
# Of two ports it is told whose file it is, whatever comes first in the command.
text net.txt node a 4\nport from\nport to\nwire a.0 from\nwire a.3 to\n
image a.img 11 24 F2 54 41 F7 11 24 F2 53 41 FB 60 02
tpnet format device net.txt . 65536
tpnet run device --stream --until-quiet --explain --out 1=fine --out 0=nowhere/out
tpnet run device --stream --until-quiet --explain --out 0=nowhere/out --out 1=fine
tpnet run device --stream --until-quiet --explain --discard 0 --discard 1 --in 1=net.txt --in 0=nowhere/in
tpnet run device --stream --until-quiet --explain --discard 0 --discard 1 --in 0=nowhere/in --in 1=net.txt

story unwritten
# A file that takes an output fails at a call: three ask which it is and how long, one syncs it, one writes, and one syncs that. Of the last two it is
# told what comes of opening and syncing it again: that goes where one call fails alone, and not where those behind it do, too.
text net.txt node a 4\nport h\nwire a.0 h\n
image a.img 11 24 F2 54 41 F7 11 24 F2 41 FB 60 03
tpnet format d net.txt . 16384
copy d fresh
text in abcd
sweep alone device
copy fresh d
remove out_device
tpnet run d --stream --quantum=64 --until-quiet --workers 1 --out 0=out_device --in 0=in --explain
end
sweep onward device
copy fresh d
remove out_device
tpnet run d --stream --quantum=64 --until-quiet --workers 1 --out 0=out_device --in 0=in --explain
end

story failed_input
# A call fails on the file of an input, or on the files of a request to stop.
text net.txt node a 4\nport h\nwire a.0 h\n
image a.img 11 24 F2 54 41 F7 11 24 F2 41 FB 60 03
tpnet format d net.txt . 16384
copy d fresh
text in_device abcd
sweep alone device
copy fresh d
tpnet run d --stream --quantum=64 --until-quiet --workers 1 --discard 0 --in 0=in_device --explain
end
held 100
sweep alone all 0
remove d.stop
tpnet stop d --explain
end

story failed_calls
# Whichever call of the device fails, what the system said of it is told: of a run, a compaction and a stream. Behind a run that was done the device is
# opened again, for nodes that have halted: where a call of that fails nothing is said. The turns of this run make one entry, so its flusher, a thread of
# its own, makes one group of it whenever it comes to that: with more entries the number of calls would depend on time.
text net.txt node a 4\nport h\nwire a.0 h\n
image a.img
tpnet format device net.txt . 16384
copy device old
tpnet run old --turns 1 --workers 1 --quantum 16 2>err
sweep alone device 2
copy old device
tpnet run device --turns 2 --workers 1 --quantum 16 --explain >out 2>err
has err \n  device: No space left on device (os error 28)\n  Make room on its disk, or name a path on another one.\n  A run reads and writes it: mend that, and give the same command again. Nothing that was acknowledged or shown is lost.\n
end
sweep alone device 2
copy old device
tpnet compact device --explain >out 2>err
has err \n  device: No space left on device (os error 28)\n  Make room on its disk, or name a path on another one.\n  It is read and written: mend that, and give the same command again. Nothing is lost.\n
end
sweep alone device 2
copy old device
tpnet run device --stream --turns 4 --discard 0 --explain >out 2>err
has err \n  device: 
end
# No read brings a byte, nor does one later: the one is told, and then the other.
copy old device
calls most 0
tpnet run device --stream --turns 4 --discard 0 --explain
tpnet compact device --explain
tpnet run device --turns 4 --explain
calls

story failed_copy
# Of a backup the system's words are told where a call on the copy's file or its names failed, and not where one on the device did, which is opened
# again: so by turns, as pieces of the one are read and written into the other.
text net.txt node a 4\nport h\nwire a.0 h\n
image a.img
tpnet format d\x1Bv net.txt . 16384
sweep alone all 0
remove copy
tpnet backup d\x1Bv copy --explain >out 2>err
starts err tpnet: ReadFailed\n
has err \n  copy: 
has err \n  d\x5Cx1Bv opens now. Of Busy: another process writes it so fast that no moment of it could be copied; try again, or stop that process.\n  Of DeviceFailed: the copy didn't open to what the device opened to. Else memory was wanting, or a read failed.\n
end

story numbers_of_ends
# Which number is whose, where an end has less or more of a port than it is to have, and which port's file it is.
text net.txt node a 4\nport from\nport to\nwire a.0 from\nwire a.3 to\n
image a.img 11 24 F2 54 41 F7 11 24 F2 53 41 FB 60 02
tpnet format device net.txt . 65536
text given abcd
tpnet run device --stream --quantum=64 --until-quiet --discard 0 --out 1=out --in 0=given 2>err
ends err quiet\n
text short xy
tpnet run device --stream --until-quiet --out 0=none --out 1=short --explain
tpnet run device --stream --until-quiet --discard 0 --out 1=- --have 1=3 --explain
tpnet run device --stream --until-quiet --discard 0 --out 1=- --have 1=5 --explain

story old_device
# What is said of a device that was there, whichever call of its file fails as another one is formatted over it: it may be gone, and when.
text net.txt node a 4\nport h\nwire a.0 h\n
image a.img
tpnet format device net.txt . 16384
copy device old
sweep alone device 5
copy old device
tpnet format device net.txt . 20000 --explain
end
# And of one that wasn't there.
sweep alone all 10
remove device
tpnet format device net.txt . 20000 --explain
end
# It is as it was if it can't be opened to be written. To say what is wrong with one, it needn't be.
copy old device
calls read-only
keep device
tpnet format device net.txt . 20000 --explain
stay
set device 7 03
tpnet show device --explain
calls

story no_devices
# What is no device: a folder, and what is no regular file.
folder there
tpnet show there --explain
tpnet show /dev/null --explain
tpnet run there --stream --until-quiet --discard 0 --explain
tpnet run nowhere --stream --until-quiet --discard 0 --explain
tpnet run /dev/null --stream --until-quiet --discard 0 --explain

story images
# Which rule an image breaks, and at which place.
image a.img
set a.img 0 02
tpnet try a.img --turns 4 --explain
image a.img
set a.img 0 00
tpnet try a.img --turns 4 --explain
image a.img
set a.img 2 03
tpnet try a.img --turns 4 --explain
image a.img
set a.img 2 05
tpnet try a.img --turns 4 --explain
image a.img
set a.img 42 01 04
tpnet try a.img --turns 4 --explain
# The greatest slice count breaks none: what is behind it is told.
image a.img
set a.img 42 00 04
set a.img 92 01
tpnet try a.img --turns 4 --explain
image a.img
set a.img 1 05
tpnet try a.img --turns 4 --explain
image a.img
set a.img 40 02
tpnet try a.img --turns 4 --explain
# Of two the first one is told: a byte that is too great, and Wptr.
set a.img 8 01
tpnet try a.img --turns 4 --explain
# Where no topology names an image, it may have any pages.
fill page 1024 00
join b.img a.img page
set b.img 2 05
tpnet try b.img --turns 4 --explain
image a.img
set a.img 8 01
tpnet try a.img --turns 4 --explain
image a.img
set a.img 141 01
tpnet try a.img --turns 4 --explain
# At the edges: lengths and pages, Wptr by one bit, the first and the last input end.
image a.img
set a.img 2 00 04
tpnet try a.img --turns 4 --explain
set a.img 2 01 04
tpnet try a.img --turns 4 --explain
image a.img
join b.img a.img page
tpnet try b.img --turns 4 --explain
cut a.img 172
tpnet try a.img --turns 4 --explain
cut a.img 171
tpnet try a.img --turns 4 --explain
image a.img
set a.img 8 02
tpnet try a.img --turns 4 --explain
image a.img
set a.img 157 01
tpnet try a.img --turns 4 --explain
image a.img
set a.img 108 01
tpnet try a.img --turns 4 --explain

story places
# Where a damaged record stands: in the second area, and of which port a line is that a port sends.
text net.txt node a 4\nport h\nport k\nwire a.0 h\nwire a.3 k\n
image a.img
tpnet format device net.txt . 32768
copy device fresh
tpnet compact device >out
copy device compacted
set device 33289 DD
tpnet recover device --explain
copy compacted device
set device 33301 02
tpnet recover device --explain
copy compacted device
set device 33299 01
tpnet recover device --explain
copy fresh device
set device 577 09
tpnet recover device --explain
copy fresh device
set device 4821 03
tpnet recover device --explain
# Six ports, of which the last one's line is line 9, behind those of the node's four links.
text net.txt node a 4\nport g\nport h\nport i\nport j\nport k\nport l\nwire a.0 h\nwire a.3 l\n
tpnet format device net.txt . 65536
set device 4837 03
tpnet recover device --explain
# Two nodes of 5 and 7 pages, three ports, and a compacted device: of the second node the image and the line of its last link, the line and the record of
# the last port, and the journal behind it.
text net.txt node a 5\nnode b 7\nport g\nport h\nport k\nwire a.0 b.1\nwire b.3 g\nwire a.2 k\n
fill page 1024 00
image a.img
join b.img a.img page page page
set b.img 2 07
join a.img a.img page
set a.img 2 05
tpnet format device net.txt . 50000
tpnet compact device >out
copy device compacted
set device 55825 02
tpnet recover device --explain
copy compacted device
set device 63196 01
tpnet recover device --explain
copy compacted device
set device 63204 01
tpnet recover device --explain
copy compacted device
set device 79676 11
tpnet recover device --explain
copy compacted device
set device 87845 A5
tpnet recover device --explain
# The last port of the most that there may be.
text net.txt node a 4\nport g\nport h\nport i\nport j\nport k\nport l\nport m\nport n\nwire a.3 n\n
image a.img
tpnet format device net.txt . 90000
set device 62352 11
tpnet recover device --explain

story heads
# Which field of a head breaks its rule, by the version, and a form that isn't known.
text net.txt node a 4\nport h\nwire a.0 h\n
image a.img
tpnet format device net.txt . 16384
copy device fresh
copy fresh device
set device 7 03
tpnet recover device --explain
copy fresh device
set device 8 00
tpnet recover device --explain
copy fresh device
set device 8 11
tpnet recover device --explain
copy fresh device
set device 8 10
tpnet recover device --explain
copy fresh device
set device 9 00
tpnet recover device --explain
copy fresh device
set device 9 09
tpnet recover device --explain
copy fresh device
set device 9 08
tpnet recover device --explain
copy fresh device
set device 15 01
tpnet recover device --explain
copy fresh device
set device 24 03
tpnet recover device --explain
copy fresh device
set device 24 01 01
tpnet recover device --explain
copy fresh device
set device 24 00 01
tpnet recover device --explain
copy fresh device
set device 26 04
tpnet recover device --explain
copy fresh device
set device 54 04
tpnet recover device --explain
copy fresh device
set device 57 01
tpnet recover device --explain
copy fresh device
set device 57 80
tpnet recover device --explain
copy fresh device
set device 57 81
tpnet recover device --explain
copy fresh device
set device 57 05
tpnet recover device --explain
copy fresh device
set device 57 05 00 00 02
tpnet recover device --explain
copy fresh device
set device 59 80
tpnet recover device --explain
copy fresh device
set device 60 01
tpnet recover device --explain
copy fresh device
set device 511 01
tpnet recover device --explain
copy fresh device
set device 16 E9 32
tpnet recover device --explain
copy fresh device
cut device 33279
tpnet recover device --explain
copy fresh device
set device 16 E9 32
cut device 26578
tpnet recover device --explain
copy fresh device
cut device 512
tpnet recover device --explain
sweep alone device
tpnet recover device --explain
end
copy fresh device
cut device 511
tpnet recover device --explain
copy fresh device
set device 531 01
tpnet recover device --explain
copy fresh device
set device 532 01
tpnet recover device --explain
copy fresh device
set device 521 DD
tpnet recover device --explain
# A plain area, whose form is as it has to be.
bring kept/one.dev device
set device 521 DD
tpnet recover device --explain
# A wide head.
text net.txt node n0 4\nnode n1 4\nnode n2 4\nnode n3 4\nnode n4 4\nnode n5 4\nnode n6 4\nnode n7 4\nnode n8 4\nnode n9 4\nnode n10 4\nnode n11 4\nnode n12 4\nnode n13 4\nnode n14 4\nnode n15 4\nnode n16 4\nport h\nwire n16.0 h\nwire n16.3 n0.0\n
image n0.img
image n1.img
image n2.img
image n3.img
image n4.img
image n5.img
image n6.img
image n7.img
image n8.img
image n9.img
image n10.img
image n11.img
image n12.img
image n13.img
image n14.img
image n15.img
image n16.img
tpnet format device net.txt . 100000
copy device wide
copy wide device
set device 8 40
tpnet recover device --explain
copy wide device
set device 8 41
tpnet recover device --explain
copy wide device
set device 56 01 04
tpnet recover device --explain
copy wide device
set device 56 00 04
tpnet recover device --explain
copy wide device
set device 58 04
tpnet recover device --explain
copy wide device
set device 150 00 01
tpnet recover device --explain
copy wide device
set device 154 44
tpnet recover device --explain
copy wide device
set device 280 01
tpnet recover device --explain
copy wide device
set device 282 00 80
tpnet recover device --explain
copy wide device
set device 288 01
tpnet recover device --explain
copy wide device
set device 1023 01
tpnet recover device --explain
copy wide device
cut device 1023
tpnet recover device --explain
copy wide device
cut device 1024
tpnet recover device --explain
copy wide device
cut device 511
tpnet recover device --explain
copy wide device
cut device 201023
tpnet recover device --explain
copy wide device
set device 1024 00
tpnet recover device --explain
# Whichever call fails as it is opened and looked at again.
sweep alone device
tpnet recover device --explain
end
copy wide device
set device 1043 01
tpnet recover device --explain
copy wide device
set device 69333 02
tpnet recover device --explain
copy wide device
set device 73601 03
tpnet recover device --explain
copy wide device
set device 73869 03
tpnet recover device --explain

story shown_line
# The line of a topology that is at fault is shown with its tabs and control characters as numbers, so that they are seen, and no terminal obeys
# them. A CR in front of an LF ends a line, and isn't shown; any other is a byte of it. Of a long line 200 characters are shown.
text net.txt node\x09a 4\nport h\n
tpnet check net.txt . --explain
text net.txt node a 4\nport h\nwire a.0 \x1B[31mh\x7F\n
tpnet check net.txt . --explain
text net.txt node a 4\nport \xC2\x9Bh\n
tpnet check net.txt . --explain
text net.txt node gr\xC3\xB6\xC3\x9Fe 4\n
tpnet check net.txt . --explain
text net.txt node a 04\x0D\nport h\x0D\n
tpnet check net.txt . --explain
text net.txt node a 4\nport h\x0D
tpnet check net.txt . --explain
text net.txt node aaaaaaaaaaaaaaaaaaaaaaaaaaaaaaaaaaaaaaaaaaaaaaaaaaaaaaaaaaaaaaaaaaaaaaaaaaaaaaaaaaaaaaaaaaaaaaaaaaaaaaaaaaaaaaaaaaaaaaaaaaaaaaaaaaaaaaaaaaaaaaaaaaaaaaaaaaaaaaaaaaaaaaaaaaaaaaaaaaaaaaaaaaaaaaaaaaa\nport h\n
tpnet check net.txt . --explain
text net.txt node aaaaaaaaaaaaaaaaaaaaaaaaaaaaaaaaaaaaaaaaaaaaaaaaaaaaaaaaaaaaaaaaaaaaaaaaaaaaaaaaaaaaaaaaaaaaaaaaaaaaaaaaaaaaaaaaaaaaaaaaaaaaaaaaaaaaaaaaaaaaaaaaaaaaaaaaaaaaaaaaaaaaaaaaaaaaaaaaaaaaaaaaaaaaaaaaaaabc\nport h\n
tpnet check net.txt . --explain

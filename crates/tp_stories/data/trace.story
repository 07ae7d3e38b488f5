# The steps of one node alone.

story letter
# The node sends a letter on link 0. Nobody is there, so it waits for good: the last line says so, where no further step is.
image a.img
keep a.img
tpnet trace a.img
stay
tpnet trace a.img --steps 3
# Where there is a further step there is no such line.
tpnet trace a.img --steps=2
tpnet trace a.img --steps 1

story functions
# Each function, with its operand as it was spelt: up to five bytes for it. The last one reads outside memory, and halts.
image a.img 22 2F 42 61 41 D1 71 11 30 52 21 21 21 27 80 C5 A1 41 13 E0 B2 91 02 22 F0 60 BE 40 31
tpnet trace a.img

story operations
# The operations on registers, one behind the other.
image a.img 47 42 F5 43 FC 44 25 F3 45 22 FC 43 21 FF 49 F4 43 F8 46 25 F2 4C 24 F6 43 24 FB 49 23 F3 23 F2 43 24 F1 41 24 F0 40 F9 23 F4 23 FF F0 10 F2 41 F0 FA 43 45 24 F2 23 F7 23 F8 24 FF 21 F6 23 F1 43 21 FA 49 21 F3 49 24 FD 21 F0 22 F9 21 FE 25 F5
tpnet trace a.img --steps 56
# Those on memory and those that change Wptr and Iptr; then a process that stops where Error is set, which stays set.
image a.img 24 41 14 23 FB 14 F1 14 15 44 24 FA 18 23 FC 23 FC 41 21 FB F6 21 F0 25 F5
tpnet trace a.img

story processes
# A high process is made ready: the low one is interrupted, and restored. Then an alternative and a loop. A step that is no instruction
# has a name, too, and stands at where Iptr pointed.
image a.img 71 23 F9 24 F3 41 24 F9 40 40 24 F8 24 F4 41 40 23 F0 40 40 22 FF 24 F5 42 D5 14 44 22 F1 21 F5
set a.img 688 00 03 00 80
set a.img 936 80 01 00 80
set a.img 556 21 F5
tpnet trace a.img
# Two processes, and a channel between them.
image a.img 24 F2 D4 4E 21 10 FD 15 14 41 F7 16 14 44 F7 15 14 41 FB 21 F5 60 14 24 42 FE 60 14 24 43 FF 11 60 14 41 F7 60 14 22 80 F3
set a.img 732 90 01 00 80
set a.img 736 01 00 00 00
set a.img 572 21 F5
tpnet trace a.img

story none
# Bytes that are no instruction: an operation that isn't listed, a 17th prefix, and prefixes that end with memory.
image a.img 21 F1
tpnet trace a.img
image a.img 20 20 20 20 20 20 20 20 20 20 20 20 20 20 20 20 20
tpnet trace a.img
image a.img
set a.img 4 FF 0F 00 80
set a.img 4267 20
tpnet trace a.img
# A node that has halted makes no step, and one in which nothing runs makes none, either.
set a.img 1 01
tpnet trace a.img
image a.img
set a.img 41 00
tpnet trace a.img

story busy
# An end of a link is at work, as in an image that tpnet image took: it is as it was. An output waits, so the letter finds its link busy; an input waits, holds a
# byte, or is enabled by an alternative, which is nothing to an output.
image out.img
set out.img 44 01
set out.img 52 00 00 00 80 01
image in.img
set in.img 108 01
set in.img 116 00 00 00 80 01
image held.img
set held.img 109 01
image enabled.img
set enabled.img 108 02
tpnet trace out.img
tpnet trace in.img --steps 3
tpnet trace held.img --steps 3
tpnet trace enabled.img --steps 3
# The node of a device that has sent its letter waits for the acknowledge: its image is traced on from there.
text net.txt node a 4\nport h\nwire a.0 h\n
image a.img
tpnet format device net.txt . 16384
tpnet run device --turns 1 --workers 1 --quantum 16
tpnet image device 0 >now.img
tpnet trace now.img
tpnet try now.img --turns 4

story refused
# What is no image is refused, in the words of try.
fill empty.img 0 00
text text.img no image
image later.img
set later.img 0 02
tpnet trace empty.img
tpnet trace text.img
tpnet trace later.img
# An image has a head of 172 bytes, and at least 4 pages of 1024 bytes behind it, as its head says.
fill short.img 171 00
tpnet trace short.img
image short.img
cut short.img 171
tpnet trace short.img
image short.img
cut short.img 172
tpnet trace short.img
image short.img
set short.img 2 03
cut short.img 3244
tpnet trace short.img
image short.img
cut short.img 4267
tpnet trace short.img
image long.img
set long.img 4268 00
length long.img
tpnet trace long.img
image page.img
set page.img 2 05
tpnet trace page.img
# A slice count is at most 1,024.
image s.img
set s.img 42 01 04
tpnet trace s.img
set s.img 42 00 04
tpnet trace s.img --steps 1
# A file that is not there can not be read.
tpnet trace a.img
# A number of steps that is none, or out of its range.
image a.img
tpnet trace a.img --steps 0 2>err
empty err
tpnet trace a.img --steps 4294967296 2>err
empty err
tpnet trace a.img --steps +4 2>err
empty err
tpnet trace a.img --steps 04 2>err
empty err
tpnet trace a.img --steps '' 2>err
empty err
tpnet trace a.img --turns 4 2>err
empty err
tpnet trace a.img --steps 4294967295
tpnet trace --help >out
has out dispatch high

story device
# What the journal's entries did at a node, each from the state before it: a line for each token that came in and each step, with what left. Node 0 sends its
# letter, and goes round once it is acknowledged; node 1 goes round. The host's entries are no node's. Looking changes nothing.
text net.txt node a 4\nnode b 4\nport h\nwire a.0 h\n
image a.img
image b.img 60 0E
tpnet format device net.txt . 24576
tpnet run device --turns 6 --workers 1 --quantum 4
keep device
tpnet journal device
tpnet trace device 0
tpnet trace device 1
# The steps of its first entry are those of its image, behind the entry's number.
tpnet trace a.img
stay
# Behind a checkpoint there is nothing.
tpnet compact device
tpnet trace device 0

story part
# A part of the entries: the first, one that is another node's, the last, and those behind the last, up to the greatest number.
text net.txt node a 4\nnode b 4\nport h\nwire a.0 h\n
image a.img
image b.img 60 0E
tpnet format device net.txt . 24576
tpnet run device --turns 6 --workers 1 --quantum 4
tpnet trace device 0 --to 0
tpnet trace device 0 --from 1 --to 2
tpnet trace device 0 --from 3 --to 3
tpnet trace device 1 --from=4 --to=5
tpnet trace device 1 --from 2 --to 18446744073709551615
tpnet trace device 1 --from 5
tpnet trace device 1 --from 18446744073709551615
# Numbers that are none, or that are in no order; options that go with the other form.
tpnet trace device 1 --from 18446744073709551616 2>err
empty err
tpnet trace device 1 --to 04 2>err
empty err
tpnet trace device 1 --from 3 --to 2
tpnet trace device 1 --steps 4 2>err
empty err
tpnet trace a.img --from 0
tpnet trace a.img --to 0

story no_device
# A node that isn't there: the first one behind the last, and the greatest number; and what is no number.
text net.txt node a 4\nport h\nwire a.0 h\n
image a.img
tpnet format device net.txt . 16384
tpnet run device --turns 4 --workers 1 --quantum 4
tpnet trace device 0 --to 0
tpnet trace device 1
tpnet trace device 18446744073709551615
tpnet trace device 18446744073709551616
tpnet trace device x
# What is no device, and what isn't there.
tpnet trace a.img 0
tpnet trace other 0
# A group of the journal that breaks its rules, by the number of its first entry: nothing is printed.
copy device bad
set bad 13041 FF
tpnet recover bad
tpnet trace bad 0 --to 0
# A full disk takes nothing of it.
shut full
tpnet trace device 0 --to 0
shut

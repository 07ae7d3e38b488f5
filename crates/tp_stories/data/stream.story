# What run --stream does with files and standard streams, and what it refuses. Its last line says what ended it.

story refused
# What the words alone are refused for, and then what the device and its ends are, in their order; the device stays as it is.
text net.txt node a 4\nport h\nwire a.0 h\n
image a.img 11 24 F2 54 41 F7 11 24 F2 41 FB 60 03
tpnet format device net.txt . 16384
text in ab
copy device fresh
tpnet run device --stream --quantum=64 --out 0=- --wait-lock 4294968
tpnet run device --stream --quantum=64 --out 0=- --turns 4294967296
tpnet run device --stream --quantum=64 --until-quiet --out bytes
tpnet run device --stream --quantum=64 --until-quiet --in 8=-
tpnet run device --stream --quantum=64 --until-quiet --have 0=+1
tpnet run device --stream --quantum=64 --until-quiet --discard x
tpnet run device --stream --quantum=64 --until-quiet --out 3=- --discard 3
tpnet run device --stream --quantum=64 --until-quiet --in 1=- --in 1=in
tpnet run device --stream --quantum=64 --until-quiet --out 0=- --out 1=-
tpnet run device --stream --quantum=64 --until-quiet --discard 0 --in 6=- --in 2=-
tpnet run device --stream --quantum=64 --until-quiet --discard 0 --have 7=1
tpnet run device --stream --quantum=64 --until-quiet --out 0=device
tpnet run device --stream --quantum=64 --until-quiet --out 0=- --in 0=nowhere
tpnet run device --stream --quantum=64 --until-quiet --out 0=nowhere/out
tpnet run device --stream --quantum=64 --until-quiet --spare 5
tpnet run device --stream --quantum=64 --until-quiet --out 0=- --discard 1
tpnet run device --stream --quantum=64 --until-quiet
tpnet run device --stream --quantum=64 --until-quiet --out 0=- --have 0=1
equal device fresh
# What was put and confirmed is refused where an end has less of it.
text given abcd
tpnet run device --stream --quantum=64 --until-quiet --out 0=out --in 0=- <given
asked stdin
tpnet run device --stream --quantum=64 --until-quiet --out 0=short
text short xy
keep short
tpnet run device --stream --quantum=64 --until-quiet --out 0=short
stay
tpnet run device --stream --quantum=64 --until-quiet --out 0=- --have 0=3
tpnet run device --stream --quantum=64 --until-quiet --out 0=- --have 0=5
show out 0 4
length out

story longer
# A file that has one byte more than the port has put out is refused, and stays; one that has as many is taken.
text net.txt node a 4\nport h\nwire a.0 h\n
image a.img 11 24 F2 54 41 F7 11 24 F2 41 FB 60 03
tpnet format device net.txt . 16384
text one x
fill none 0 00
text five vwxyz
text four stuv
keep one five
tpnet run device --stream --quantum=64 --until-quiet --out 0=one
text given abcd
tpnet run device --stream --quantum=64 --until-quiet --out 0=none --in 0=- <given
tpnet run device --stream --quantum=64 --until-quiet --out 0=five
tpnet run device --stream --quantum=64 --until-quiet --out 0=four
stay
text wanted x
equal one wanted
text wanted abcd
equal none wanted
text wanted vwxyz
equal five wanted
text wanted stuv
equal four wanted
tpnet run device --stream --quantum=64 --until-quiet --out 0=five --explain

story put_out
# A file that has as many bytes as the port has put out is taken, though none of them is confirmed; one with one more is not. Where
# another port's file is refused, it stays as it is.
# A node hands on what port 0 gets to port 1, which has put out abcde, and nothing is confirmed.
text net.txt node a 4\nport from\nport to\nwire a.0 from\nwire a.3 to\n
image a.img 11 24 F2 54 41 F7 11 24 F2 53 41 FB 60 02
text in abcde
tpnet format device net.txt . 65536
tpnet run device --turns=200 --workers=1 --in in >out 2>err
text one x
text five vwxyz
text six uvwxyz
copy one one_before
copy five five_before
copy six six_before
keep five
tpnet run device --stream --quantum=64 --until-quiet --discard 0
tpnet run device --stream --quantum=64 --until-quiet --discard 0 --out 1=six
tpnet run device --stream --quantum=64 --until-quiet --out 1=five --out 0=one
equal one one_before
equal five five_before
equal six six_before
stay
tpnet run device --stream --quantum=64 --until-quiet --discard 0 --out 1=five >out 2>err
equal five in

story piped
# Standard input, what the reader of standard output has, and what it gets: what goes through standard streams comes once, and what
# was accepted is passed over.
text net.txt node a 4\nport h\nwire a.0 h\n
image a.img 11 24 F2 54 41 F7 11 24 F2 41 FB 60 03
tpnet format device net.txt . 16384
text given ab
tpnet run device --stream --quantum=64 --until-quiet --out 0=- --in 0=- --have 0=0 <given 2>err
starts err out 0 
ends err  written 2 confirmed 2 quiet\n
text given ab
tpnet run device --stream --quantum=64 --until-quiet --out 0=- --in 0=- --have 0=2 <given 2>err
starts err out 0 
ends err  written 2 confirmed 2 quiet\n
text given abcdef
tpnet run device --stream --quantum=64 --until-quiet --out 0=- --in 0=- --have 0=2 <given 2>err
starts err out 0 
ends err  written 6 confirmed 6 quiet\n
text given a
tpnet run device --stream --quantum=64 --until-quiet --out 0=- --in 0=- --have 0=6 <given 2>err
starts err out 0 
ends err  written 6 confirmed 6 quiet\n

story files
# Far more bytes than a port holds go from file to file, a few turns at a time: the file is never emptied, and at the end it is the
# input.
text net.txt node a 4\nport h\nwire a.0 h\n
image a.img 11 24 F2 54 41 F7 11 24 F2 41 FB 60 03
tpnet format device net.txt . 65536
fill in 6000 00 01 02 03 04 05 06 07 08 09 0A 0B 0C 0D 0E 0F 10 11 12 13 14 15 16 17 18 19 1A 1B 1C 1D 1E 1F 20 21 22 23 24 25 26 27 28 29 2A 2B 2C 2D 2E 2F 30 31 32 33 34 35 36 37 38 39 3A 3B 3C 3D 3E 3F 40 41 42 43 44 45 46 47 48 49 4A 4B 4C 4D 4E 4F 50 51 52 53 54 55 56 57 58 59 5A 5B 5C 5D 5E 5F 60 61 62 63 64 65 66 67 68 69 6A 6B 6C 6D 6E 6F 70 71 72 73 74 75 76 77 78 79 7A 7B 7C 7D 7E 7F 80 81 82 83 84 85 86 87 88 89 8A 8B 8C 8D 8E 8F 90 91 92 93 94 95 96 97 98 99 9A 9B 9C 9D 9E 9F A0 A1 A2 A3 A4 A5 A6 A7 A8 A9 AA AB AC AD AE AF B0 B1 B2 B3 B4 B5 B6 B7 B8 B9 BA BB BC BD BE BF C0 C1 C2 C3 C4 C5 C6 C7 C8 C9 CA CB CC CD CE CF D0 D1 D2 D3 D4 D5 D6 D7 D8 D9 DA DB DC DD DE DF E0 E1 E2 E3 E4 E5 E6 E7 E8 E9 EA EB EC ED EE EF F0 F1 F2 F3 F4 F5 F6 F7 F8 F9 FA
tpnet run device --stream --quantum=64 --turns 9000 --out 0=out --in 0=in --progress >printed 2>err
begins in out
empty out
copy out had
tpnet run device --stream --quantum=64 --turns 9000 --out 0=out --in 0=in --progress >printed 2>err
begins in out
begins out had
equal out had
tpnet run device --stream --quantum=64 --until-quiet --out 0=out --in 0=in >printed 2>err
equal out in

story full
# A port puts out more than it holds, beside a node that never rests: it runs on, over at least two checkpoints. Each three turns put a letter out,
# by one worker and by three. The output of a port that is let go is confirmed, too.
text net.txt node a 4\nnode busy 4\nport h\nwire a.0 h\n
image a.img
set a.img 439 60 03
copy a.img busy.img
fill letters 10000 41
tpnet format device net.txt . 32768
copy device other
tpnet run device --stream --quantum=64 --turns 30000 --workers 1 --out 0=out >printed 2>err
ends err  turns\n
equal out letters
tpnet show device >shown
ends shown port 0 taken 0 pending 0 confirmed 10000 unconfirmed 0\n
has shown generation 1 
has shown generation 2 
tpnet run other --stream --quantum=64 --turns 30000 --workers 3 --out 0=more >printed 2>err
ends err  turns\n
equal more letters
tpnet show other >shown
ends shown port 0 taken 0 pending 0 confirmed 10000 unconfirmed 0\n
has shown generation 1 
has shown generation 2 
tpnet run device --stream --quantum=64 --turns 16000 --discard 0 >printed 2>err
tpnet show device >shown
ends shown  unconfirmed 0\n

story endings
# Why streams end, on a device whose node sends back each byte; and inputs of one byte less than the port has accepted, of
# as many, and of one more.
text net.txt node a 4\nport h\nwire a.0 h\n
image a.img 11 24 F2 54 41 F7 11 24 F2 41 FB 60 03
tpnet format device net.txt . 16384
text two ab
text three abc
text four abcd
tpnet run device --stream --quantum=64 --turns 0 --discard 0 --wait-lock 4294967
text given abc
tpnet run device --stream --quantum=64 --out 0=- --in 0=- <given
tpnet run device --stream --quantum=64 --turns=0 --out 0=-
tpnet run device --stream --quantum=64 --until-quiet --discard 0 --in 0=two
# An output that is refused comes first.
text five vwxyz
keep five
tpnet run device --stream --quantum=64 --until-quiet --out 0=five --in 0=two
stay
tpnet run device --stream --quantum=64 --until-quiet --out 0=- --in 0=three
tpnet run device --stream --quantum=64 --until-quiet --stop-on-halt --out 0=- --in 0=four
tpnet run device --stream --quantum=64 --discard 0 --in 0=two --explain

story stopped
# A node loads a word that isn't there, and halts; the other, whose link 0 is wired to the port, waits at link 3. Both are told;
# one that waits only where a byte of input is pending and nothing is left to do.
text net.txt node a 4\nnode b 4\nport h\nwire b.0 h\n
image a.img 40 30
image b.img 11 24 F2 57 41 F7
tpnet format device net.txt . 65536
tpnet run device --stream --quantum=64 --stop-on-halt --discard 0
tpnet run device --turns=3 --workers=1 --explain
tpnet run device --turns=3 --workers=1
text given ab
tpnet run device --stream --quantum=64 --until-quiet --discard 0 --in 0=- <given
tpnet run device --stream --quantum=64 --turns 9 --discard 0
tpnet run device --stream --quantum=64 --discard 0
tpnet run device --stream --quantum=64 --discard 0 --stop-on-halt --until-quiet

story stopped_each
# Of four nodes the second and the last halt, and the others wait while input is pending: each is told by its own number, in order.
text net.txt node a 4\nnode b 4\nnode c 4\nnode d 4\nport h\nport g\nwire a.0 h\nwire c.0 g\n
image a.img 11 24 F2 54 41 F7 11 24 F2 41 FB 60 03
image b.img 40 30
image c.img 11 24 F2 57 41 F7
image d.img 40 40 2F FF
tpnet format device net.txt . 65536
text given ab
tpnet run device --stream --until-quiet --discard 0 --discard 1 --in 1=given
tpnet run device --stream --stop-on-halt --discard 0 --discard 1

story inside
# Two nodes wait for each other, and a third one sends back what its port gets. Who waits is told by --explain alone, and only if the stream ended
# because nothing was left to do.
text net.txt node a 4\nnode b 4\nnode c 4\nport h\nwire a.0 h\nwire b.0 c.0\n
image a.img 11 24 F2 54 41 F7 11 24 F2 41 FB 60 03
image b.img 11 24 F2 54 41 F7
image c.img 11 24 F2 54 41 F7
tpnet format fresh net.txt . 65536
text given ab
copy fresh device
tpnet run device --stream --quantum=64 --workers 1 --until-quiet --out 0=- --in 0=given --explain
copy fresh device
tpnet run device --stream --quantum=64 --workers 1 --out 0=- --in 0=given --explain
image a.img
tpnet format device net.txt . 65536
reader-makes device.stop
tpnet run device --stream --quantum=64 --workers 1 --out 0=- --explain 2>err
ends err  stopped\n
reader-makes
image c.img 40 30
tpnet format device net.txt . 65536
tpnet run device --stream --quantum=64 --stop-on-halt --discard 0 --workers 1 --explain 2>err
ends err halted\n

story pages
# A node of 16 pages writes a word into each of twelve of them, a thousand times, then sends the letter A and stops. It writes more
# pages than it has spare frames, and isn't quiet while a snapshot holds it back: its byte comes.
text net.txt node a 16\nport h\nwire a.0 h\n
fill a.img 16556 00
set a.img 0 01 00 10 00 00 01 00 80 00 02 00 80
set a.img 24 00 00 00 80 00 00 00 80 00 00 00 80 00 00 00 80 00 02
set a.img 216 00 00 00 80
set a.img 428 23 2E 48 D3 24 F2 24 20 50 D1 4C D2 72 71 E0 71 21 20 50 D1 72 60 8F D2 72 A2 60 00 73 60 8F D3 73 A2 61 00 24 F2 24 41 FE 21 F5
text wanted A
tpnet format device net.txt . 65536
text out 
tpnet run device --stream --quantum=64 --until-quiet --spare 0 --out 0=out 2>err
ends err  quiet\n
equal out wanted
tpnet format device net.txt . 65536
text out 
tpnet run device --stream --quantum=64 --until-quiet --spare 1 --out 0=out 2>err
ends err  quiet\n
equal out wanted
tpnet format device net.txt . 65536
text out 
tpnet run device --stream --quantum=64 --until-quiet --spare 4 --out 0=out 2>err
ends err  quiet\n
equal out wanted
tpnet format device net.txt . 65536
text out 
tpnet run device --stream --quantum=64 --until-quiet --spare 11 --out 0=out 2>err
ends err  quiet\n
equal out wanted
tpnet format device net.txt . 65536
text out 
tpnet run device --stream --quantum=64 --until-quiet --spare 16 --out 0=out 2>err
ends err  quiet\n
equal out wanted
# It writes them a hundred times, and each entry begins a snapshot: that takes more entries with none, one or four spare frames than with one fewer
# than the pages that it writes, or with as many.
set a.img 428 20 26 44
tpnet format device net.txt . 65536
text out 
tpnet run device --stream --quantum=64 --until-quiet --spare 0 --every 1 --out 0=out 2>err
ends err next 397 quiet\n
equal out wanted
tpnet format device net.txt . 65536
text out 
tpnet run device --stream --quantum=64 --until-quiet --spare 1 --every 1 --out 0=out 2>err
ends err next 405 quiet\n
equal out wanted
tpnet format device net.txt . 65536
text out 
tpnet run device --stream --quantum=64 --until-quiet --spare 4 --every 1 --out 0=out 2>err
ends err next 283 quiet\n
equal out wanted
tpnet format device net.txt . 65536
text out 
tpnet run device --stream --quantum=64 --until-quiet --spare 11 --every 1 --out 0=out 2>err
ends err next 244 quiet\n
equal out wanted
tpnet format device net.txt . 65536
text out 
tpnet run device --stream --quantum=64 --until-quiet --spare 12 --every 1 --out 0=out 2>err
ends err next 244 quiet\n
equal out wanted

story no_room
# A journal that has room for one turn and no byte more takes no input, however often it is settled: the stream says so, and ends. With an area of 31
# bytes more it does so, too; with 32, which an entry takes, all bytes are handed in: the node takes one of them, and six stay pending.
text net.txt node a 8\nport h\nwire a.0 h\n
fill a.img 8364 00
set a.img 0 01 00 08 00 00 01 00 80 00 02 00 80
set a.img 24 00 00 00 80 00 00 00 80 00 00 00 80 00 00 00 80 00 02
set a.img 216 00 00 00 80
set a.img 428 11 24 F2 54 41 F7
text in abcdefg
tpnet format device net.txt . 17546
tpnet run device --stream --until-quiet --spare 8 --quantum 1 --every 2 --discard 0 --in 0=in --explain
tpnet format device net.txt . 17577
tpnet run device --stream --until-quiet --spare 8 --quantum 1 --every 2 --discard 0 --in 0=in
tpnet format device net.txt . 17578
tpnet run device --stream --until-quiet --spare 8 --quantum 1 --every 2 --discard 0 --in 0=in 2>err
ends err  quiet\n
tpnet show device >shown
ends shown port 0 taken 1 pending 6 confirmed 0 unconfirmed 0\n

story two_inputs
# A node hands on what port 0 gets to port 2, and takes nothing of port 1. A stream of both inputs ends once both have come to their end:
# the node waits, and what is left over stays pending. The next one passes over what each port has accepted.
text net.txt node a 4\nport x\nport y\nport z\nwire a.0 x\nwire a.1 y\nwire a.3 z\n
image a.img 11 24 F2 54 41 F7 11 24 F2 53 41 FB 60 02
tpnet format device net.txt . 65536
text two ab
text three xyz
text four abcd
tpnet run device --stream --until-quiet --turns 4294967295 --in=0=- --in 1=three --out 2=- --discard 0 --discard 1 <two
tpnet show device
tpnet port device 1 --pending
tpnet node device 0 >node
has node \nin 0 inputs process 80000201 pointer 80000204 left 00000001\nin 1 idle held 78\nin 2 idle\n
tpnet run device --stream --until-quiet --in 0=four --in 1=- --out 2=- --discard 0 --discard 1 <three
# Without input for a port, what it has is still left over.
tpnet run device --stream --discard 2 --discard 0 --discard 1

story no_room_for_one
# As no_room, with two inputs: the first has come to its end, and the other one hasn't.
text net.txt node a 8\nport x\nport y\nwire a.0 x\nwire a.1 y\n
image a.img 11 24 F2 54 41 F7
cut a.img 8364
set a.img 2 08
text none 
text in abcdefg
tpnet format device net.txt . 25890
tpnet run device --stream --until-quiet --spare 8 --quantum 1 --every 2 --discard 0 --discard 1 --in 0=none --in 1=in

story room_for_one
# A run left a journal with room for one entry, and the confirms of two ports take two. Nobody has put what port 0 has put out: the stream settles before
# it confirms anything, and puts that from its first byte on.
text net.txt node a 4\nnode b 4\nport h\nport g\nwire a.0 h\nwire b.0 g\n
image a.img 27 2F 2F 2F 2F 2F 6F 40 24 41 FE 60 02
image b.img 27 2F 2F 2F 2F 2F 6F 40 24 41 FE 60 02
tpnet format device net.txt . 28000
tpnet run device --turns=46 --workers=1 --quantum=64 --every=1000000 --port=1 >shown 2>err
tpnet status device
text out 
tpnet run device --stream --quantum=64 --turns=200 --discard 1 --out 0=out 2>err
ends err next 369 turns\n
text wanted AAAAAAAAAAAAAAAAAAAAAAAAAAAAAAAAAAAAAAAAAAAAAAAAAAAAAAAAAAAAAAAAAAAAAAAAAAAAAAAAAA
equal out wanted

story unwired
# A port without a wire needs no end; one with a wire does, whichever it is.
text net.txt node a 4\nport x\nport y\nwire a.0 y\n
image a.img 27 2F 2F 2F 2F 2F 6F 40 24 41 FE 21 F5
tpnet format device net.txt . 65536
copy device before
tpnet run device --stream --until-quiet 2>err
tpnet run device --stream --until-quiet --discard 0 2>err
equal device before
tpnet run device --stream --until-quiet --out 1=- --have 1=18446744073709551615
tpnet run device --stream --until-quiet --out 1=-
tpnet run device --stream --until-quiet --out 1=- --have 1=1

story progress
# How far it has come is said by time, also while nothing is left to do. The clock goes 250 ms each time that it is asked, which is before each
# round of turns: each 10 seconds are 40 rounds, and each second is 4. Where nothing is left to do a round is 2 turns, the node's and the host's.
# The journal has room for 1381 entries, and each port with an end is named.
text net.txt node a 4\nport from\nport to\nwire a.0 from\nwire a.3 to\n
image a.img 11 24 F2 54 41 F7 11 24 F2 53 41 FB 60 02
tpnet format device net.txt . 65536
text given abc
tpnet run device --stream --turns 400 --progress --in 0=- --discard 0 --out 1=- <given >printed 2>err
has err next 14 +0/s mark 14 area 1% generation 1 turns
has err +8/s out 0 0 +0/s out 1 3 +0/s
tpnet run device --stream --turns 100 --progress-every 1 --in 0=- --discard 0 --out 1=- <given >printed 2>err
has err next 14 +0/s mark 14 area 1% generation 1 turns
has err +8/s out 0 0 +0/s out 1 3 +0/s
tpnet run device --stream --turns 60 --progress --progress-every 2 --in 0=- --discard 0 --out 1=- <given >printed 2>err
has err next 14 +0/s mark 14 area 1% generation 1 turns
has err +8/s out 0 0 +0/s out 1 3 +0/s
tpnet run device --stream --turns 60 --progress-every 3600 --in 0=- --discard 0 --out 1=- <given >printed 2>err
has err area

story confirmed_before_quiet
# A node sends the letter A once, and each look at the clock is ten seconds behind the one before. A stream isn't quiet right behind a put: two more
# turns are made, and a look finds the letter put, and its confirm on the disk. Three turns put it out, and in each two more nothing was left to do.
text net.txt node a 4\nport h\nwire a.0 h\n
image a.img 27 2F 2F 2F 2F 2F 6F 40 24 41 FE 21 F5
tpnet format device net.txt . 16384
looks 10000
tpnet run device --stream --quantum=64 --workers 1 --until-quiet --discard 0 --progress

story each_entry
# A snapshot begins behind each entry: the first holds the first run, the second one all, and then none is left to begin.
text net.txt node a 4\nport h\nwire a.0 h\n
image a.img 27 2F 2F 2F 2F 2F 6F 40 24 41 FE 21 F5
tpnet format device net.txt . 16384
tpnet run device --stream --until-quiet --every 1 --out 0=-
tpnet show device

story halted_before
# The second node halted in an earlier run: a stream that stops on that makes no turn. A halt is said before the bound of turns.
text net.txt node a 4\nnode b 4\nport h\nwire a.0 h\n
image a.img
image b.img 40 30
tpnet format device net.txt . 65536
tpnet run device --turns 3 --workers 1
tpnet run device --stream --stop-on-halt --turns 9 --discard 0
tpnet run device --stream --stop-on-halt --turns 0 --discard 0

story no_turns
# Of no turns the end is behind the steps of the ports: both bytes of the input are pending then.
text net.txt node a 4\nport h\nwire a.0 h\n
image a.img 11 24 F2 54 41 F7 11 24 F2 41 FB 60 03
tpnet format device net.txt . 16384
text given ab
tpnet run device --stream --turns 0 --discard 0 --in 0=given
tpnet show device

story left_over
# More input than a port holds, and its node takes nothing of it: 4096 bytes are pending, the rest isn't handed in, and nothing is left
# to do. The input may end there, but no byte before.
text net.txt node a 4\nport x\nport y\nwire a.0 x\nwire a.1 y\n
image a.img 11 24 F2 54 41 F7
fill in 5000 78
tpnet format device net.txt . 65536
tpnet run device --stream --until-quiet --discard 0 --discard 1 --in 1=in
tpnet show device >shown
ends shown \nport 0 taken 0 pending 0 confirmed 0 unconfirmed 0\nport 1 taken 0 pending 4096 confirmed 0 unconfirmed 0\n
cut in 4096
tpnet run device --stream --until-quiet --discard 0 --discard 1 --in 1=in
cut in 4095
tpnet run device --stream --until-quiet --discard 0 --discard 1 --in 1=in

story one_left_over
# One byte that no node takes is enough.
text net.txt node a 4\nport x\nport y\nwire a.0 x\nwire a.1 y\n
image a.img 11 24 F2 54 41 F7
text in x
tpnet format device net.txt . 65536
tpnet run device --stream --until-quiet --discard 0 --discard 1 --in 1=in

story stop_file
# A stream that a file is to end isn't begun where something is at its path already, where it is a file of the stream, also one that is
# made for it, and where its path can't be looked at: the device stays as it is. Where nothing is there it goes as without.
text net.txt node a 4\nport h\nwire a.0 h\n
image a.img 11 24 F2 54 41 F7 11 24 F2 41 FB 60 03
tpnet format device net.txt . 16384
text given ab
text stop x
folder there
keep device given stop
tpnet run device --stream --quantum=64 --out 0=out --in 0=given --stop-file stop
tpnet run device --stream --quantum=64 --out 0=out --in 0=given --stop-file there
tpnet run device --stream --quantum=64 --out 0=out --in 0=given --stop-file ./device
tpnet run device --stream --quantum=64 --out 0=out --in 0=given --stop-file ./given
tpnet run device --stream --quantum=64 --out 0=out --in 0=given --stop-file out
tpnet run device --stream --quantum=64 --out 0=out --in 0=given --stop-file given/stop
tpnet run device --stream --quantum=64 --out 0=out --in 0=given --stop-file ''
there out
tpnet run device --stream --quantum=64 --out 0=out --in 0=given --stop-file ./out
empty out
stand stderr=stop
tpnet run device --stream --quantum=64 --out 0=out --in 0=given --stop-file stop
stand
stay
remove stop
tpnet run device --stream --quantum=64 --out 0=out --in 0=given --stop-file stop 2>err
ends err gone\n
equal out given
there stop

story stopped_by_a_file
# A stream is stopped by a file that its reader makes once the first bytes have come: it ends at status 0 long before all have come, says so, and has
# confirmed what was written. The next one is refused until the file has gone, and then goes on there: each byte has come once at the end.
text net.txt node a 4\nport h\nwire a.0 h\n
image a.img 11 24 F2 54 41 F7 11 24 F2 41 FB 60 03
tpnet format device net.txt . 16384
fill given 10000 61
reader-makes stop
tpnet run device --stream --quantum=64 --out 0=- --in 0=given --stop-file stop >front 2>err
ends err  stopped\n
begins given front
equal given front
empty front
there stop
keep device given
tpnet run device --stream --quantum=64 --out 0=- --in 0=given --stop-file stop
stay
remove stop
reader-makes
tpnet run device --stream --quantum=64 --out 0=- --in 0=given --stop-file stop >rest 2>err
ends err  written 10000 confirmed 10000 gone\n
begins given rest
equal given rest
join both front rest
equal both given
there stop

story stopped_otherwise
# What is at the path of a stop file may be a folder. A request ends a stream that has a stop file, too. A link that leads nowhere ends none.
text net.txt node a 4\nport h\nwire a.0 h\n
image a.img 11 24 F2 54 41 F7 11 24 F2 41 FB 60 03
tpnet format fresh net.txt . 16384
fill given 10000 61
copy fresh device
reader-makes stop/
tpnet run device --stream --quantum=64 --out 0=- --in 0=given --stop-file stop >front 2>err
ends err  stopped\n
copy fresh device
reader-makes device.stop
tpnet run device --stream --quantum=64 --out 0=- --in 0=given --stop-file other >front 2>err
ends err  stopped\n
there device.stop
reader-makes
copy fresh device
symlink nothing dangling
tpnet run device --stream --quantum=64 --out 0=- --in 0=given --stop-file dangling >front 2>err
ends err gone\n
equal front given

story stop_file_of_ports
# Of two ports no file of an output or input is one that stops the stream, and neither is a request.
text net.txt node a 4\nport x\nport y\nwire a.1 x\nwire a.0 y\n
image a.img 24 F2 51 24 42 FE 24 F2 24 41 FE 21 F5
tpnet format device net.txt . 32768
text one
text two
keep device one two
tpnet run device --stream --until-quiet --out 0=x --out 1=y --in 0=one --in 1=two --stop-file ./two
tpnet run device --stream --until-quiet --out 0=one --out 1=two --stop-file ./two
tpnet run two --stream --until-quiet --discard 0 --out 1=y --stop-file ./two
text device.stop
tpnet run device --stream --until-quiet --out 0=one --out 1=device.stop
# The stop file is looked at first.
tpnet run device --stream --until-quiet --out 0=one --out 1=device.stop --stop-file one
tpnet run device --stream --until-quiet --discard 0 --discard 1 --in 0=one --in 1=device.stop
there x
stay

story unseen_stop
# A node sends the letter A again and again. A path that can't be looked at any more is no stop: the stream goes on to its last turn. Each two
# turns put a letter out. Where the file itself comes it stops.
text net.txt node a 4\nport h\nwire a.0 h\n
image a.img 27 2F 2F 2F 2F 2F 6F 40 24 41 FE 60 02
tpnet format device net.txt . 65536
reader-makes folder
tpnet run device --stream --quantum=64 --turns=4000 --out 0=- --stop-file folder/stop >front 2>err
ends err  written 2000 confirmed 2000 turns\n
show front 0 4
remove folder
tpnet run device --stream --quantum=64 --turns=4000 --out 0=- --stop-file folder >rest 2>err
ends err  stopped\n
show rest 0 4
there folder

story terminals
# Each look at the clock is ten seconds behind the one before. Where standard error is a terminal a stream says how far it has come whatever was
# typed, and else just where that was asked for. Each line is written over the one before it where standard error is a terminal, but not where a
# port's output comes on that; it ends where its rest is cleared, and the last one is ended.
text net.txt node a 4\nport h\nwire a.0 h\n
image a.img 11 24 F2 54 41 F7 11 24 F2 41 FB 60 03
tpnet format device net.txt . 16384
looks 10000
tpnet run device --stream --quantum=64 --turns=8 --discard 0 2>err
has err \x0D\x1B[?7lnext 1 +0/s mark 1 area 0% generation 1 turns
has err \x1B[K\x1B[?7h\x0D
has err \x1B[K\x1B[?7h\nnext 1 
has err /s\nnext 1 +0/s mark 1 area 0% generation 1 turns
has err \x0D
has err \x1B
looks 10000 stdout
tpnet run device --stream --quantum=64 --turns=8 --out 0=- 2>err
has err \x0D\x1B[?7lnext 1 +0/s mark 1 area 0% generation 1 turns
has err \x1B[K\x1B[?7h\x0D
has err \x1B[K\x1B[?7h\nnext 1 
has err /s\nnext 1 +0/s mark 1 area 0% generation 1 turns
has err \x0D
has err \x1B
looks 10000
tpnet run device --stream --quantum=64 --turns=8 --discard 0 --progress 2>err
has err \x0D\x1B[?7lnext 1 +0/s mark 1 area 0% generation 1 turns
has err \x1B[K\x1B[?7h\x0D
has err \x1B[K\x1B[?7h\nnext 1 
has err /s\nnext 1 +0/s mark 1 area 0% generation 1 turns
has err \x0D
has err \x1B
looks 10000
tpnet run device --stream --quantum=64 --turns=8 --discard 0 --progress-every 10 2>err
has err \x0D\x1B[?7lnext 1 +0/s mark 1 area 0% generation 1 turns
has err \x1B[K\x1B[?7h\x0D
has err \x1B[K\x1B[?7h\nnext 1 
has err /s\nnext 1 +0/s mark 1 area 0% generation 1 turns
has err \x0D
has err \x1B
looks 10000 stderr
tpnet run device --stream --quantum=64 --turns=8 --discard 0 2>err
has err \x0D\x1B[?7lnext 1 +0/s mark 1 area 0% generation 1 turns
has err \x1B[K\x1B[?7h\x0D
has err \x1B[K\x1B[?7h\nnext 1 
has err /s\nnext 1 +0/s mark 1 area 0% generation 1 turns
has err \x0D
has err \x1B
looks 10000 stderr stdout
tpnet run device --stream --quantum=64 --turns=8 --discard 0 --progress 2>err
has err \x0D\x1B[?7lnext 1 +0/s mark 1 area 0% generation 1 turns
has err \x1B[K\x1B[?7h\x0D
has err \x1B[K\x1B[?7h\nnext 1 
has err /s\nnext 1 +0/s mark 1 area 0% generation 1 turns
has err \x0D
has err \x1B
looks 10000 stderr
tpnet run device --stream --quantum=64 --turns=8 --out 0=- 2>err
has err \x0D\x1B[?7lnext 1 +0/s mark 1 area 0% generation 1 turns
has err \x1B[K\x1B[?7h\x0D
has err \x1B[K\x1B[?7h\nnext 1 
has err /s\nnext 1 +0/s mark 1 area 0% generation 1 turns
has err \x0D
has err \x1B
looks 10000 stderr stdout
tpnet run device --stream --quantum=64 --turns=8 --out 0=- 2>err
has err \x0D\x1B[?7lnext 1 +0/s mark 1 area 0% generation 1 turns
has err \x1B[K\x1B[?7h\x0D
has err \x1B[K\x1B[?7h\nnext 1 
has err /s\nnext 1 +0/s mark 1 area 0% generation 1 turns
has err \x0D
has err \x1B
looks 10000 stderr
tpnet run device --stream --quantum=64 --turns=8 --discard 0 --progress-every 60 2>err
has err \x0D\x1B[?7lnext 1 +0/s mark 1 area 0% generation 1 turns
has err \x1B[K\x1B[?7h\x0D
has err \x1B[K\x1B[?7h\nnext 1 
has err /s\nnext 1 +0/s mark 1 area 0% generation 1 turns
has err \x0D
has err \x1B
# A line that isn't ended is ended before it is said why the stream has failed.
text given ab
looks 10000 stderr
shut full
tpnet run device --stream --quantum=64 --out 0=- --in 0=given --no-explain 2>err
shut
ends err \x1B[K\x1B[?7h\ntpnet: DeviceFailed\n

story unread
# A node sends the letter A again and again. Each look at the clock is ten seconds behind the one before, and 1,024 turns lie between two looks, but
# 928 in front of the last ones. While standard error hasn't taken what was said before, no line of progress is said. The next line says by how much
# all grew since the last one that was said, or since the first look that found a time: 1,952 turns in 20 seconds. The last line is said all the same.
text net.txt node a 4\nport h\nwire a.0 h\n
image a.img 27 2F 2F 2F 2F 2F 6F 40 24 41 FE 60 02
tpnet format device net.txt . 1048576
copy device second
copy device third
looks 10000 stuck=1-1000 stderr
tpnet run device --stream --quantum=64 --turns=4000 --discard 0 2>err
has err %
has err \x0D
starts err next 
ends err  turns\n
looks 10000 stuck=4-4
tpnet run second --stream --quantum=64 --turns=4000 --discard 0 --progress 2>err
has err turns 1024 +102/s out 0 
has err turns 2048 +102/s out 0 
has err turns 3072
has err turns 4000 +97/s out 0 
ends err  turns\n
looks 10000 stuck=1-2
tpnet run third --stream --quantum=64 --turns=4000 --discard 0 --progress 2>err
has err turns 1024
has err turns 2048
has err turns 3072 +102/s out 0 
has err turns 4000 +92/s out 0 
ends err  turns\n

story shut
# A standard output that takes nothing: on a full disk that is a fault, and that its reader has gone is none. Nothing is confirmed then, and the
# next stream writes it.
text net.txt node a 4\nport h\nwire a.0 h\n
image a.img 11 24 F2 54 41 F7 11 24 F2 41 FB 60 03
tpnet format device net.txt . 16384
text in ab
shut full
tpnet run device --stream --quantum=64 --out 0=- --in 0=- <in 2>err
ends err \ntpnet: DeviceFailed\n
shut gone
tpnet run device --stream --quantum=64 --out 0=- --in 0=- <in 2>err
ends err  written 0 confirmed 0 gone\n
shut
tpnet run device --stream --quantum=64 --until-quiet --out 0=- 2>err

story gone_beside_a_waiting_node
# Whoever takes the output goes while its node still sends. The other node waits beside input that nobody has taken, but it isn't told: it might
# have gone on.
text net.txt node b 4\nnode a 4\nport g\nport h\nwire b.0 g\nwire a.0 h\n
image b.img 11 24 F2 55 41 F7
image a.img 27 2F 2F 2F 2F 2F 6F 40 24 41 FE 60 02
tpnet format device net.txt . --area 1M
text given ab
shut gone
tpnet run device --stream --discard 0 --in 0=given --out 1=-
shut
tpnet show device

story synced
# A node sends the letter A once. What a stream syncs beside its device: a file that takes an output as it is opened, and its folder where it is
# empty; and it once more behind the piece that is put. What goes to standard output, or is let go, is synced nowhere, nor is an input.
text net.txt node a 4\nport h\nwire a.0 h\n
image a.img 27 2F 2F 2F 2F 2F 6F 40 24 41 FE 21 F5
tpnet format device net.txt . 16384
folder sub
tpnet run device --stream --turns 0 --out 0=sub/out 2>err
asked syncs
empty sub/out
tpnet run device --stream --quantum=64 --until-quiet --out 0=sub/out 2>err
asked syncs
length sub/out
text in ab
tpnet run device --stream --quantum=64 --until-quiet --out 0=sub/out --in 0=in 2>err
asked syncs
tpnet run device --stream --quantum=64 --until-quiet --out 0=- --in 0=in >printed 2>err
asked syncs
tpnet run device --stream --quantum=64 --until-quiet --discard 0 --in 0=in 2>err
asked syncs

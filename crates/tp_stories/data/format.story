# What makes a device, what is on it then, and what is refused and leaves each file as it was.

story one_node
# The device of one node: its head, the open gate of the first area with its front, the closed gate of its first group, the
# closed gate of the second area, and the image of the node.
text net.txt node a 4\nport h\nwire a.0 h\n
image a.img
tpnet format device net.txt . 16384
length device
show device 0 16
show device 16 10
show device 56 4
show device 512 21
show device 13033 1
show device 16896 1
part device image 533 4268
equal image a.img

story two_nodes
# The device of two nodes has the image of each, in their order.
text net.txt node left 4\nnode right 4\nport h\nwire left.0 h\n
image left.img
image right.img
set right.img 437 42
tpnet format device net.txt . 32768
tpnet recover device
tpnet show device
length device
show device 0 5
part device image 533 4268
equal image left.img
part device image 4801 4268
equal image right.img

story three_nodes
# Images stand in the order of the topology, not in that of the names: here the letters of c, a and b.
text net.txt node c 4\nnode a 4\nnode b 4\nport h\nwire c.0 h\n
image a.img
set a.img 437 41
image b.img
set b.img 437 42
image c.img
set c.img 437 43
tpnet format device net.txt . 32768
show device 970 1
show device 5238 1
show device 9506 1

story twelve_nodes
# The tenth image, the eleventh and the twelfth are those of the tenth node, of the eleventh and of the twelfth.
text net.txt node a 4\nnode b 4\nnode c 4\nnode d 4\nnode e 4\nnode f 4\nnode g 4\nnode h 4\nnode i 4\nnode j 4\nnode k 4\nnode l 4\nport z\n
image a.img
image b.img
image c.img
image d.img
image e.img
image f.img
image g.img
image h.img
image i.img
image j.img
image k.img
image l.img
set j.img 437 4A
set k.img 437 4B
set l.img 437 4C
tpnet format device net.txt . 65536
show device 39382 1
show device 43650 1
show device 47918 1

story refused_new
# A topology that is refused makes no file, nor does an image that can not be read.
image a.img
text net.txt node a 4\n
tpnet format device net.txt . 16384
there device
text net.txt node a 4\nport h\nwire a.4 h\n
tpnet format device net.txt . 16384
there device
text net.txt node a 4\nport h\nwire a.0 h\nwire a.0 a.1\n
tpnet format device net.txt . 16384
there device
text net.txt node a 4\nwire a.0 b.1\n
tpnet format device net.txt . 16384
there device
text net.txt port a\nport b\nport c\nport d\nport e\nport f\nport g\nport h\nport i\n
tpnet format device net.txt . 16384
there device
text net.txt node a 4\nnode none 4\nport h\n
tpnet format device net.txt . 16384
there device
# The topology is refused before its images are read.
text net.txt node none 4\n
tpnet format device net.txt . 16384
there device
# A folder that is not there.
text net.txt node a 4\nport h\n
tpnet format nowhere/device net.txt . 16384
# A topology that is not there.
remove net.txt
tpnet format device net.txt . 16384
# An image and a topology are regular files: what else is at their paths isn't opened.
text net.txt node a 4\nnode null 4\nport h\n
symlink /dev/null null.img
tpnet format device net.txt . 16384
tpnet check net.txt .
tpnet check net.txt . --explain
tpnet format device /dev/null . 16384
tpnet check /dev/null .
tpnet format device /dev/null . 16384 --explain
tpnet format device . . 16384
there device

story refused_old
# What is refused leaves a device that is there as it was: a fault of the topology, of an image, of the area.
text net.txt node a 4\nport h\nwire a.0 h\n
image a.img
tpnet format device net.txt . 16384
copy device before
text net.txt node a 4\n
tpnet format device net.txt . 16384
equal device before
text net.txt node a 4\nport h\nwire a.0 h\n
text net.txt node a 4\nnode b 4\nport h\n
tpnet format device net.txt . 16384
equal device before
text net.txt node a 4\nport h\nwire a.0 h\n
text a.img no image
tpnet format device net.txt . 16384
equal device before
image a.img
text net.txt node a 5\nport h\n
tpnet format device net.txt . 16384
equal device before
text net.txt node a 4\nport h\nwire a.0 h\n
tpnet format device net.txt . 13033
equal device before
tpnet format device net.txt . 100
equal device before
tpnet format device net.txt . 0
equal device before
# With --new a file that is there is refused; another path is taken, and the device there is the same.
tpnet format --new device net.txt . 16384
equal device before
# Of two faults the file that is there comes first, then what can't be opened as a device, then an image, then the area.
text a.img no image
tpnet format --new device net.txt . 100
tpnet format device net.txt . 100
equal device before
folder there
symlink /dev/null null
tpnet format --new there net.txt . 100
tpnet format --new null net.txt . 100
tpnet format there net.txt . 100
tpnet format null net.txt . 100
image a.img
tpnet format there net.txt . 16384
tpnet format null net.txt . 16384
tpnet format --new other net.txt . 16384
equal other before

story small_areas
# An area with room for one entry is the least. A file that was made stays, with its length, and all its bytes are 00.
text net.txt node a 4\nport h\nwire a.0 h\n
image a.img
tpnet format device13033 net.txt . 13033
length device13033
fill zeros 26578 00
equal device13033 zeros
tpnet format device100 net.txt . 100
length device100
fill zeros 712 00
equal device100 zeros
tpnet format device0 net.txt . 0
length device0
fill zeros 512 00
equal device0 zeros
tpnet format device net.txt . 13034
length device

story other_images
# An image does not fit where a link of it is at work, where it says other pages than the topology, or where it is none. The
# file that was made stays, and all its bytes are 00.
text net.txt node a 4\nport h\nwire a.0 h\n
image a.img
fill zeros 33280 00
set a.img 109 01
tpnet format busy net.txt . 16384
equal busy zeros
image a.img
set a.img 2 05
tpnet format larger net.txt . 16384
equal larger zeros
fill a.img 0 00
tpnet format none net.txt . 16384
equal none zeros

story full
# On a full disk a new file is refused before what is in it, and isn't left; one that is there stays, and what is in it is refused first.
text net.txt node a 4\nport h\nwire a.0 h\n
image a.img
fill before 200 2A
copy before other
calls most 0
tpnet format device net.txt . 100
there device
tpnet format other net.txt . 100
tpnet format other net.txt . 16384
equal other before

story rivals
# Another process wants the path at which a device is made. What it puts there is neither written over nor removed. Here it has taken the lock of
# the file that was made, which is left to it, empty.
text net.txt node a 4\nport h\nwire a.0 h\n
image a.img
text theirs theirs
rival locks
tpnet format device net.txt . 16384 --explain
length device
remove device
tpnet format --new device net.txt . 16384
length device
# It moves a file there right before one is made, which --new says.
remove device
copy theirs other
rival 1 other
tpnet format device net.txt . 16384 --explain
equal device theirs
remove device
copy theirs other
tpnet format --new device net.txt . 16384
equal device theirs
# It does so right behind that, before the file is opened.
remove device
copy theirs other
rival 2 other
tpnet format device net.txt . 16384
equal device theirs
# It does so once the file is open: that one is formatted, which nothing names any more.
remove device
copy theirs other
rival 3 other
tpnet format device net.txt . 16384
equal device theirs
# So it is where there was one before.
copy theirs other
rival 2 other
tpnet format device net.txt . 16384
equal device theirs
# It does so once the file is open, and then no byte can be written.
remove device
copy theirs other
rival 3 other
calls most 0
tpnet format device net.txt . 16384
equal device theirs
# Without it the file that was made is removed then.
rival
remove device
tpnet format device net.txt . 16384
there device
# It moves a file over a device right before that is opened.
calls
tpnet format device net.txt . 16384
copy theirs other
rival 1 other
tpnet format device net.txt . 16384
equal device theirs

story large
# Above 4 GiB the second area has its gate where an offset that wraps would hit the first image, or read it. The file is made larger by hand:
# so it takes no room.
text net.txt node a 4\nport h\nwire a.0 h\n
image a.img
tpnet format large net.txt . 16384
cut large 16896
set large 16 15 00 00 00 01
cut large 8589935146
length large
tpnet recover large
set large 4294967829 A5 01
tpnet show large

story replaced
# Neither the topology nor an image becomes the device, under whatever name; each file stays as it was.
text net.txt node b 4\nnode a 4\nport h\nwire a.0 h\n
image a.img
image b.img
text other other
symlink net.txt to_net
link net.txt also_net
symlink a.img to_image
link a.img also_image
symlink other to_other
link other also_other
keep device in there fresh net.txt a.img
tpnet format net.txt net.txt . 65536 2>err
starts err tpnet: DEVICE 
ends err nothing was written\n
stay
keep device in there fresh net.txt a.img
tpnet format --new net.txt net.txt . 65536 2>err
starts err tpnet: DEVICE 
ends err nothing was written\n
stay
keep device in there fresh net.txt a.img
tpnet format ./net.txt net.txt . 65536 2>err
starts err tpnet: DEVICE 
ends err nothing was written\n
stay
keep device in there fresh net.txt a.img
tpnet format --new ./net.txt net.txt . 65536 2>err
starts err tpnet: DEVICE 
ends err nothing was written\n
stay
keep device in there fresh net.txt a.img
tpnet format to_net net.txt . 65536 2>err
starts err tpnet: DEVICE 
ends err nothing was written\n
stay
keep device in there fresh net.txt a.img
tpnet format --new to_net net.txt . 65536 2>err
starts err tpnet: DEVICE 
ends err nothing was written\n
stay
keep device in there fresh net.txt a.img
tpnet format also_net net.txt . 65536 2>err
starts err tpnet: DEVICE 
ends err nothing was written\n
stay
keep device in there fresh net.txt a.img
tpnet format --new also_net net.txt . 65536 2>err
starts err tpnet: DEVICE 
ends err nothing was written\n
stay
keep device in there fresh net.txt a.img
tpnet format a.img net.txt . 65536 2>err
starts err tpnet: DEVICE 
ends err nothing was written\n
stay
keep device in there fresh net.txt a.img
tpnet format --new a.img net.txt . 65536 2>err
starts err tpnet: DEVICE 
ends err nothing was written\n
stay
keep device in there fresh net.txt a.img
tpnet format ./a.img net.txt . 65536 2>err
starts err tpnet: DEVICE 
ends err nothing was written\n
stay
keep device in there fresh net.txt a.img
tpnet format --new ./a.img net.txt . 65536 2>err
starts err tpnet: DEVICE 
ends err nothing was written\n
stay
keep device in there fresh net.txt a.img
tpnet format to_image net.txt . 65536 2>err
starts err tpnet: DEVICE 
ends err nothing was written\n
stay
keep device in there fresh net.txt a.img
tpnet format --new to_image net.txt . 65536 2>err
starts err tpnet: DEVICE 
ends err nothing was written\n
stay
keep device in there fresh net.txt a.img
tpnet format also_image net.txt . 65536 2>err
starts err tpnet: DEVICE 
ends err nothing was written\n
stay
keep device in there fresh net.txt a.img
tpnet format --new also_image net.txt . 65536 2>err
starts err tpnet: DEVICE 
ends err nothing was written\n
stay
# It is told which file that would be: the topology first, if it is an image, too.
folder images
tpnet format ./net.txt net.txt . 65536
tpnet format to_image net.txt . 65536
link net.txt images/b.img
copy a.img images/a.img
tpnet format images/b.img net.txt images 65536
tpnet format --new images/a.img to_net ./images 65536
# A link to another file does.
tpnet format to_other net.txt . 65536
tpnet format also_other net.txt . 65536

story sizes
# The bytes of an area as a size, in which K, M and G are 1,024s: the device is the one that their number makes.
text net.txt node a 4\nport h\nwire a.0 h\n
image a.img
tpnet format one net.txt . 16384
tpnet format --area 16384 two net.txt .
equal one two
tpnet format --area=16K three net.txt .
equal one three
tpnet format large net.txt . --area 1M
length large
# The least area, one byte less, and none.
tpnet format --area 13034 least net.txt .
tpnet format --area 13033 small net.txt .
tpnet format --area 12K small net.txt .
tpnet format --area 0G small net.txt .
# The greatest area in each measure, and one more. A device is there: so 2^40 bytes are refused for that.
tpnet format --new --area 1099511627776 one net.txt .
tpnet format --new --area 1099511627777 one net.txt . 2>err
tpnet format --new --area 1073741824K one net.txt .
tpnet format --new --area 1073741825K one net.txt . 2>err
tpnet format --new --area 1048576M one net.txt .
tpnet format --new --area 1048577M one net.txt . 2>err
tpnet format --new --area 1024G one net.txt .
tpnet format --new --area 1025G one net.txt . 2>err
has err tpnet: --area takes a decimal
# 2^64 bytes and more are no smaller number of them.
tpnet format --new --area 17179869184G one net.txt . 2>err
tpnet format --new --area 17179869183G one net.txt . 2>err
tpnet format --new --area 17592186044416M one net.txt . 2>err
tpnet format --new --area 18014398509481984K one net.txt . 2>err
tpnet format --new --area 18446744073709551615K one net.txt . 2>err
tpnet format --new --area 18446744073709551616 one net.txt . 2>err
tpnet format --new --area 18446744073709551616K one net.txt . 2>err
# What is no size.
tpnet format --new --area=K one net.txt . 2>err
tpnet format --new --area=16k one net.txt . 2>err
tpnet format --new --area=16KB one net.txt . 2>err
tpnet format --new --area=016K one net.txt . 2>err
tpnet format --new --area=+16K one net.txt . 2>err
tpnet format --new --area=-16K one net.txt . 2>err
tpnet format --new --area=1.5M one net.txt . 2>err
tpnet format --new --area=16T one net.txt . 2>err
tpnet format --new --area '' one net.txt . 2>err
# The size is given once at most: by the option or by the word after DIR.
tpnet format --new --area 16K one net.txt . 16384 2>err
tpnet format --new --area 16K --area 16K one net.txt . 2>err
equal one three

story area_word
# The word after DIR is a size as --area takes one.
text net.txt node a 4\nport h\nwire a.0 h\n
image a.img
tpnet format one net.txt . 16384
tpnet format two net.txt . 16K
equal one two
tpnet format three net.txt . 1M
length three
tpnet format --new one net.txt . 1024G
tpnet format --new one net.txt . 1025G 2>err
has err tpnet: AREA takes a decimal
tpnet format --new one net.txt . 17179869184G 2>err
tpnet format --new one net.txt . 16k 2>err
tpnet format --new one net.txt . 16KB 2>err
tpnet format --new one net.txt . 016K 2>err
tpnet format --new one net.txt . '' 2>err
equal one two

story default_area
# Without AREA the areas are the least with room for 65536 entries between two checkpoints: 13002 + 32 * 65536 bytes each.
text net.txt node a 4\nport h\nwire a.0 h\n
image a.img
tpnet format one net.txt .
length one
tpnet format two net.txt . 2110154
equal one two
tpnet status one
tpnet compact two
# One byte less has room for an entry less.
tpnet format less net.txt . 2110153
tpnet status less
# What else is refused is refused as with an AREA: DeviceExists before BadImage.
bytes bad.img 00
text bad.txt node bad 4\nport h\nwire bad.0 h\n
keep one
tpnet format --new one bad.txt .
tpnet format new bad.txt .
tpnet format --new new bad.txt . 0
stay

# recover by several threads: however many they are, it prints what it prints by one, and writes nothing.

story kept
# The devices that were kept as bytes: of one node, of two in the middle of a checkpoint, and of sixteen in a chain.
bring kept/one.dev one
bring kept/two.dev two
bring kept/sixteen.dev sixteen
cut sixteen 166620
keep one two sixteen
tpnet recover one --workers 1
tpnet recover one --workers 2
tpnet recover one --workers 16
tpnet recover two --workers 1
tpnet recover two --workers 2
tpnet recover two --workers 16
tpnet recover sixteen --workers 1
tpnet recover sixteen --workers 2
tpnet recover sixteen --workers 16
stay

story two_groups
# Two nodes and a port. In the first group each node makes 3 steps, which send a letter, and takes the other's; in the second the port
# gets a byte. Threads wait for each other where a letter is taken.
text net.txt node left 4\nnode right 4\nport h\nwire left.0 right.0\nwire right.3 h\n
image left.img
image right.img
tpnet format device net.txt . 65536
tpnet recover device --workers 1
tpnet recover device --workers 2
tpnet recover device --workers 16
set device 17317 A5 00 04 00 00 00 00 00 00 00 00 00 00 00 00 00
set device 17333 01 00 03 00 00 00 00 00 00 00 00 00 00 00 00 00
set device 17349 01 01 03 00 00 00 00 00 01 00 00 00 00 00 00 00
set device 17365 02 01 00 00 41 00 00 00 02 00 00 00 00 00 00 00
set device 17381 02 01 04 00 41 00 00 00 03 00 00 00 00 00 00 00
set device 17397 A5 00 01 00 00 00 00 00 04 00 00 00 00 00 00 00
set device 17413 03 00 61 00 00 00 00 00 04 00 00 00 00 00 00 00
set device 17429 00
keep device
tpnet recover device --workers 1
tpnet recover device --workers 2
tpnet recover device --workers 3
tpnet recover device --workers 16
tpnet recover device --workers=2
stay
copy device grown
# The left node has no fourth step.
copy grown device
set device 17335 04
tpnet recover device --workers 1
tpnet recover device --workers 2
tpnet recover device --workers 16
# Another letter than the right node sent is taken by the left one.
copy grown device
set device 17385 42
tpnet recover device --workers 1
tpnet recover device --workers 2
tpnet recover device --workers 16
# Both nodes stop: the left one first, then the right one.
copy grown device
set device 17335 04
set device 17369 42
tpnet recover device --workers 1
tpnet recover device --workers 2
tpnet recover device --workers 16
# Both nodes stop: the right one first, then the left one.
copy grown device
set device 17351 04
set device 17385 42
tpnet recover device --workers 1
tpnet recover device --workers 2
tpnet recover device --workers 16
# The left node stops for a letter that the right one, which stops later, has sent by then.
copy grown device
set device 17385 42
set device 17414 01
tpnet recover device --workers 1
tpnet recover device --workers 2
tpnet recover device --workers 16
# There is no second port.
copy grown device
set device 17414 01
tpnet recover device --workers 1
tpnet recover device --workers 2
tpnet recover device --workers 16
# The second group has 65 entries.
copy grown device
set device 17399 41
tpnet recover device --workers 1
tpnet recover device --workers 2
tpnet recover device --workers 16
# The second group has 65 entries, and in front of it a node stops.
copy grown device
set device 17399 41
set device 17385 42
tpnet recover device --workers 1
tpnet recover device --workers 2
tpnet recover device --workers 16
# No entry is of that kind.
copy grown device
set device 17413 09
tpnet recover device --workers 1
tpnet recover device --workers 2
tpnet recover device --workers 16
# No entry is of that kind, and in front of it a node stops.
copy grown device
set device 17413 09
set device 17351 04
tpnet recover device --workers 1
tpnet recover device --workers 2
tpnet recover device --workers 16
# The number of the port's entry is one too high.
copy grown device
set device 17405 05
set device 17421 05
tpnet recover device --workers 1
tpnet recover device --workers 2
tpnet recover device --workers 16
# The number of the port's entry is one too high, and in front of it a node stops.
copy grown device
set device 17405 05
set device 17421 05
set device 17369 42
tpnet recover device --workers 1
tpnet recover device --workers 2
tpnet recover device --workers 16
# Behind the second group there is another one, with no entry.
copy grown device
set device 17429 A5 00 00
tpnet recover device --workers 1
tpnet recover device --workers 2
tpnet recover device --workers 16
# The image of the right node, and an entry of it.
copy grown device
set device 4801 02
set device 17351 04
tpnet recover device --workers 1
tpnet recover device --workers 2
tpnet recover device --workers 16
# No area is open.
copy grown device
set device 512 00
tpnet recover device --workers 1
tpnet recover device --workers 2
tpnet recover device --workers 16
# The version is another one.
copy grown device
set device 7 09
tpnet recover device --workers 1
tpnet recover device --workers 2
tpnet recover device --workers 16
# It is no device.
copy grown device
set device 0 55
tpnet recover device --workers 1
tpnet recover device --workers 2
tpnet recover device --workers 16
# What is said of it at length is no other, either.
copy grown device
set device 17351 04
tpnet recover device --workers 1 --explain 2>one
tpnet recover device --workers 16 --explain 2>sixteen
equal one sixteen
remove device
tpnet recover device --workers 1
tpnet recover device --workers 2
tpnet recover device --workers 16

story refused
# How many threads there are is typed as for run, and refused so. Other commands that open a device have no such option.
bring kept/one.dev device
keep device
tpnet recover device --workers 0 2>err
tpnet run device --turns 1 --workers 0 2>run
equal err run
tpnet recover device --workers 17 2>err
tpnet run device --turns 1 --workers 17 2>run
equal err run
tpnet recover device --workers 256 2>err
tpnet run device --turns 1 --workers 256 2>run
equal err run
tpnet recover device --workers 257 2>err
tpnet run device --turns 1 --workers 257 2>run
equal err run
tpnet recover device --workers +1 2>err
tpnet run device --turns 1 --workers +1 2>run
equal err run
tpnet recover device --workers 02 2>err
tpnet run device --turns 1 --workers 02 2>run
equal err run
tpnet recover device --workers x 2>err
tpnet run device --turns 1 --workers x 2>run
equal err run
tpnet recover device --workers '' 2>err
tpnet run device --turns 1 --workers '' 2>run
equal err run
has err tpnet: --workers takes a decimal from 1 to 16, without a sign or leading zeros
tpnet recover device --workers 2>err
empty err
tpnet recover device --workers 2 --workers 2 2>err
empty err
tpnet recover --workers 2 2>err
empty err
tpnet show device --workers 2 2>err
empty err
stay
tpnet recover --workers 2 device

# Calls of files that fail, or move few bytes: what is said then, and what is left.

story format_stops
# Another network's device is formatted over one, and from some call of the device's file on all fail. Until the first byte is written over it is
# the old device; then it is none, until all is there behind the head's first byte, which is written last: it is the other one where the last
# sync alone fails. It opens to nothing else.
text net.txt node a 4\nport h\nwire a.0 h\n
image a.img
tpnet format device net.txt . 16384
copy device old
image a.img 27 2F 2F 2F 2F 2F 6F 40 24 42
tpnet format other net.txt . 16384
sweep onward device 6
copy old device
tpnet format device net.txt . 16384
equal device old
equal device other
tpnet recover device
end

story calls_fail
# Each call of the device's file fails alone, and what is behind it is done: nothing is printed.
text net.txt node a 4\nport h\nwire a.0 h\n
image a.img
tpnet format device net.txt . 16384
copy device old
sweep alone device 5
copy old device
tpnet format device net.txt . 16384
end
equal device old
sweep alone device 5
tpnet recover device
end
equal device old
# A device whose second area is the open one, with groups.
bring kept/turned.dev device
copy device old
sweep alone device 5
tpnet show device
end
equal device old

story few_bytes
# Reads and writes that move seven bytes at most go on, and make no other device. Such that move none fail.
text net.txt node a 4\nport h\nwire a.0 h\n
image a.img
tpnet format device net.txt . 16384
copy device old
calls most 7
tpnet format device net.txt . 16384
equal device old
tpnet show device
calls most 0
tpnet format device net.txt . 16384
tpnet show device

story opened
# recover and show ask for no right to write. format asks for it, and syncs the folder of a file that it made, and nothing else but that file.
text net.txt node a 4\nport h\nwire a.0 h\n
image a.img
tpnet format device net.txt . 16384
copy device old
tpnet recover device
asked write
tpnet show device
asked write
tpnet format device net.txt . 16384
asked write
asked syncs
equal device old
remove device
tpnet format device net.txt . 16384
asked syncs
equal device old

story filled
# The bytes of devices around the 65536 that are written at once: those behind the first area's front, node and journal, 13034 in all, and behind
# the head's 512 are 00. A new file has them, and one over a file that was shorter, as long, or longer.
text net.txt node a 4\nport h\nwire a.0 h\n
image a.img
tpnet format device net.txt . 32511
part device rest 13546 51988
fill zeros 51988 00
equal rest zeros
length device
copy device one
remove device
tpnet format device net.txt . 32512
part device rest 13546 51990
fill zeros 51990 00
equal rest zeros
length device
copy device two
remove device
tpnet format device net.txt . 32513
part device rest 13546 51992
fill zeros 51992 00
equal rest zeros
length device
copy device three
fill device 1 6F
tpnet format device net.txt . 32512
equal device two
fill device 1 6F
tpnet format device net.txt . 32513
equal device three
fill device 65535 6F
tpnet format device net.txt . 32512
equal device two
fill device 65536 6F
tpnet format device net.txt . 32512
equal device two
fill device 65537 6F
tpnet format device net.txt . 32512
equal device two
fill device 65537 6F
tpnet format device net.txt . 32511
equal device one
fill device 65537 6F
tpnet format device net.txt . 32513
equal device three
fill device 200000 6F
tpnet format device net.txt . 32513
equal device three

story roomless
# A new file that gets no room is removed, whichever call fails: of the ten one makes it, one opens its folder and one syncs that, one opens
# it once it is held and one measures it, three fill it and two sync it. In front of them the topology's file and the image's are opened; behind
# them the device is written.
text net.txt node a 4\nport h\nwire a.0 h\n
image a.img
sweep alone all 10
remove device
tpnet format device net.txt . 98048
there device
end
length device
part device rest 13546 183062
fill zeros 183062 00
equal rest zeros
# The folder that is synced is that in which the device is made, wherever its images are: one call does that.
folder of_device
sweep alone device
remove of_device/made
tpnet format of_device/made net.txt . 98048
there of_device/made
end

story old_file
# A file that was there stays until there is room for the device, whichever call fails: five measure it, write three pieces behind its end and sync
# them. Where one fails it is cut back; where it can't be, as all calls fail, it begins with all that it had. Then its first byte goes before
# any other: it stays where just that write fails, and is 00 from then on, until it is written last, before the last sync.
text net.txt node a 4\nport h\nwire a.0 h\n
image a.img
tpnet format new net.txt . 98048
fill old 10000 6F
sweep alone device 5
copy old device
tpnet format device net.txt . 98048
equal device old
begins device old
show device 0 1
end
equal device new
sweep onward device 5
copy old device
tpnet format device net.txt . 98048
equal device old
begins device old
show device 0 1
end
equal device new
# One that is longer than the device has room: it is measured, and its first byte goes next.
remove new
tpnet format new net.txt . 19744
fill old 196608 6F
sweep alone device 5
copy old device
tpnet format device net.txt . 19744
equal device old
begins device old
show device 0 1
end
equal device new
sweep onward device 5
copy old device
tpnet format device net.txt . 19744
equal device old
begins device old
show device 0 1
end
equal device new

story stop_fails
# A stream that another process runs is asked to stop: the device's file is opened first, and then the request's file is made.
text net.txt node a 4\nport h\nwire a.0 h\n
image a.img
tpnet format device net.txt . 16384
copy device old
held 100
sweep alone all
remove device.stop
tpnet stop device
there device.stop
end
empty device.stop
equal device old
# Nobody has the device here. It is opened again for its head: if that can't be read, nothing is said of a stream.
held
sweep alone all
tpnet stop device
there device.stop
end
equal device old

story into_device
# Standard output is the device's file: nothing is done, printed over it, or made elsewhere.
text net.txt node a 4\nport h\nwire a.0 h\n
image a.img
tpnet format device net.txt . 16384
keep device
stand stdout=device
held 100
tpnet backup device copy 2>err
empty err
there copy
tpnet stop device 2>err
empty err
there device.stop
held
stand
stay

story compact_fails
# A device whose journal is full is compacted, and from some call of its file on all fail: nothing is lost, and it can be compacted again.
text net.txt node a 4\nport h\nwire a.0 h\n
image a.img
tpnet format device net.txt . 13130
tpnet run device --turns 6 --workers 1 --quantum 16 --every 4294967295
copy device full
text unread tpnet: ReadFailed\n
text unwritten tpnet: DeviceFailed\n
sweep onward device 12
copy full device
tpnet compact device >done 2>err
among err unread unwritten
tpnet recover device
tpnet compact device >out
ends out  next 4 room 4\n
end

story backup_fails
# Each call of a backup fails alone: nothing is left of the copy, nor of its file.
text net.txt node a 4\nport h\nwire a.0 h\n
image a.img
tpnet format device net.txt . 16384
copy device old
tpnet show device >shown
text unread tpnet: ReadFailed\n
text unwritten tpnet: DeviceFailed\n
sweep alone all 30
remove copy
tpnet backup device copy 2>err
among err unread unwritten
equal device old
there copy
there copy.part
end
tpnet show copy >then
equal shown then

story backup_stops
# All calls of a backup fail from one on, as where the disk is gone: what has the copy's name is the copy. It has its name where its other one isn't
# removed, and where its folder isn't opened or synced. Where it hasn't there is nothing to show.
text net.txt node a 4\nport h\nwire a.0 h\n
image a.img
tpnet format device net.txt . 16384
copy device old
tpnet show device >shown
text unread tpnet: ReadFailed\n
text unwritten tpnet: DeviceFailed\n
sweep onward all 30
remove copy
remove copy.part
tpnet backup device copy 2>err
among err unread unwritten
equal device old
there copy
tpnet show copy >then 2>said
equal shown then
end

story backup_folder
# The folder of COPY is synced, and no other one: where it can't be, there is no copy.
text net.txt node a 4\nport h\nwire a.0 h\n
image a.img
tpnet format source net.txt . 16384
folder of_device
sweep alone device
remove of_device/copy
tpnet backup source of_device/copy
there of_device/copy
there of_device/copy.part
end

story backup_there
# What is there stays as it is, whichever call fails.
text net.txt node a 4\nport h\nwire a.0 h\n
image a.img
tpnet format device net.txt . 16384
copy device old
text precious precious
copy precious copy
sweep alone all
tpnet backup device copy
equal copy precious
end
there copy.part
remove copy
copy precious copy.part
sweep alone all
tpnet backup device copy
equal copy.part precious
end
there copy
equal device old

story backup_meanwhile
# A file comes to stand there behind the look: the copy doesn't take its place.
text net.txt node a 4\nport h\nwire a.0 h\n
image a.img
tpnet format device net.txt . 16384
copy device old
text precious precious
copy precious copy
calls blind
tpnet backup device copy
equal copy precious
there copy.part
equal device old
remove copy
copy precious copy.part
tpnet backup device copy
equal copy.part precious
there copy
equal device old

story backup_opened
# The device is opened to be read alone. Reads and writes that come in parts make no other copy.
text net.txt node a 4\nport h\nwire a.0 h\n
image a.img
tpnet format device net.txt . 16384
tpnet show device >shown
tpnet backup device copy
asked write
tpnet show copy >then
equal shown then
remove copy
calls most 7
tpnet backup device copy
asked write
tpnet show copy >then
equal shown then

story run_fails
# From some call of the device's file on all fail in a run that prints a letter. The next one prints what isn't confirmed, and the one behind it
# the letter, where it hasn't been printed. Twice it is printed just where the first one had no time to confirm it.
text net.txt node a 4\nport h\nwire a.0 h\n
image a.img
tpnet format device net.txt . 16384
copy device fresh
text unread tpnet: ReadFailed\n
text unwritten tpnet: DeviceFailed\n
text none
text letter A
text twice AA
sweep onward device 12
copy fresh device
tpnet run device --turns 4 --workers 1 --quantum 16 >ran 2>err
among err unread unwritten
tpnet port device 0 >unconfirmed
tpnet run device --turns=0 >again 2>said
equal again unconfirmed
tpnet run device --turns 4 --workers 1 --quantum 16 >more 2>said
join rest again more
among rest none letter
join all ran rest
among all letter twice
end

story run_reads
# A file that can't be opened to be written isn't run, and stays.
text net.txt node a 4\nport h\nwire a.0 h\n
image a.img
tpnet format device net.txt . 16384
keep device
calls read-only
tpnet run device --turns 4 --workers 1 --quantum 16
asked write
stay

story stream_writes
# Each call fails alone on the file that takes an output, or on its folder: three ask what file it is and how long, two sync it and the folder, one
# writes what came back, of which half is there where it fails, and one syncs that. The same command then brings it to its end.
text net.txt node a 4\nport h\nwire a.0 h\n
image a.img 11 24 F2 54 41 F7 11 24 F2 41 FB 60 03
tpnet format d net.txt . 16384
copy d fresh
text in abcd
folder device
sweep alone device
copy fresh d
remove device/out_device
tpnet run d --stream --quantum=64 --until-quiet --workers 1 --out 0=device/out_device --in 0=in 2>err
has err tpnet: DeviceFailed\n
tpnet run d --stream --quantum=64 --until-quiet --workers 1 --out 0=device/out_device --in 0=in 2>err
equal device/out_device in
end

story stream_reads
# Each call fails alone on the file that an input comes from: which file it is; how long it is, so that nothing is known of that; and two reads, that of its
# bytes and that at their end, which is no end where it fails. The same command then brings it to its end.
text net.txt node a 4\nport h\nwire a.0 h\n
image a.img 11 24 F2 54 41 F7 11 24 F2 41 FB 60 03
tpnet format d net.txt . 16384
copy d fresh
text in_device abcd
sweep alone device
copy fresh d
remove out
tpnet run d --stream --quantum=64 --until-quiet --workers 1 --out 0=out --in 0=in_device 2>err
has err tpnet: ReadFailed\n
tpnet run d --stream --quantum=64 --until-quiet --workers 1 --out 0=out --in 0=in_device 2>err
equal out in_device
end

story stream_few_bytes
# Reads and writes that move three bytes at most go on: each byte comes in its place.
text net.txt node a 4\nport h\nwire a.0 h\n
image a.img 11 24 F2 54 41 F7 11 24 F2 41 FB 60 03
tpnet format device net.txt . 16384
text in abcdefghijklmnopqrstuvwxyz
copy device second_device
copy device third_device
calls most 3
tpnet run device --stream --quantum=64 --until-quiet --workers 1 --out 0=out --in 0=in 2>err
equal out in
# Each read is interrupted once, and made again: those of a stream's input, of a run's, and of the device.
calls interrupted
tpnet run second_device --stream --quantum=64 --until-quiet --workers 1 --out 0=second --in 0=in 2>err
equal second in
tpnet run third_device --turns 400 --workers 1 --in in >third 2>err
equal third in

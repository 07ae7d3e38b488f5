# What is asked where words were typed: too many of them, those of a backup and of a stop, a device in use; and what many workers print once.

story too_many
# Of 257 words, the program's name among them, no command is asked for, in whatever way it is read.
tpnet backup d d d d d d d d d d d d d d d d d d d d d d d d d d d d d d d d d d d d d d d d d d d d d d d d d d d d d d d d d d d d d d d d d d d d d d d d d d d d d d d d d d d d d d d d d d d d d d d d d d d d d d d d d d d d d d d d d d d d d d d d d d d d d d d d d d d d d d d d d d d d d d d d d d d d d d d d d d d d d d d d d d d d d d d d d d d d d d d d d d d d d d d d d d d d d d d d d d d d d d d d d d d d d d d d d d d d d d d d d d d d d d d d d d d d d d d d d d d d d d d d d d d d d d d d d d d d d d d
tpnet stop d d d d d d d d d d d d d d d d d d d d d d d d d d d d d d d d d d d d d d d d d d d d d d d d d d d d d d d d d d d d d d d d d d d d d d d d d d d d d d d d d d d d d d d d d d d d d d d d d d d d d d d d d d d d d d d d d d d d d d d d d d d d d d d d d d d d d d d d d d d d d d d d d d d d d d d d d d d d d d d d d d d d d d d d d d d d d d d d d d d d d d d d d d d d d d d d d d d d d d d d d d d d d d d d d d d d d d d d d d d d d d d d d d d d d d d d d d d d d d d d d d d d d d d d d d d d d d d
tpnet run d d d d d d d d d d d d d d d d d d d d d d d d d d d d d d d d d d d d d d d d d d d d d d d d d d d d d d d d d d d d d d d d d d d d d d d d d d d d d d d d d d d d d d d d d d d d d d d d d d d d d d d d d d d d d d d d d d d d d d d d d d d d d d d d d d d d d d d d d d d d d d d d d d d d d d d d d d d d d d d d d d d d d d d d d d d d d d d d d d d d d d d d d d d d d d d d d d d d d d d d d d d d d d d d d d d d d d d d d d d d d d d d d d d d d d d d d d d d d d d d d d d d d d d d d d d d d d d
tpnet run --stream d d d d d d d d d d d d d d d d d d d d d d d d d d d d d d d d d d d d d d d d d d d d d d d d d d d d d d d d d d d d d d d d d d d d d d d d d d d d d d d d d d d d d d d d d d d d d d d d d d d d d d d d d d d d d d d d d d d d d d d d d d d d d d d d d d d d d d d d d d d d d d d d d d d d d d d d d d d d d d d d d d d d d d d d d d d d d d d d d d d d d d d d d d d d d d d d d d d d d d d d d d d d d d d d d d d d d d d d d d d d d d d d d d d d d d d d d d d d d d d d d d d d d d d d d d d d d d

story of_a_run
# Each option of a run in its two forms, in front of the device and behind it. That what was typed is what is asked is proved; that such words are
# taken, and which of them the device is, is told here.
text net.txt node a 4\nport h\nwire a.0 h\n
image a.img
tpnet format d net.txt . 16384
copy d --workers
tpnet run --turns=0 d
tpnet run d --turns=7 --workers=1 --quantum 1
tpnet run d --quantum=4096 --spare=0 --port=7 --turns=3
tpnet run --spare 256 --turns 16 d --port 300
tpnet recover d
text f ab
tpnet run d --every 4294967295 --in f --turns 4 >out 2>err
tpnet status d >said
has said  port 0 accepted 2 
keep d
tpnet run --turns=4 --every=1 --in=f -- --workers >out 2>err
tpnet status -- --workers >said
has said  port 0 accepted 2 
# The greatest numbers: these words are taken, so the device is asked for, which another process has, or the first file is looked for.
held 100
tpnet run --turns 4294967295 --workers 16 d
held
tpnet try b.img --turns 4294967295
tpnet format new t i 1099511627776
there new
stay

story of_a_backup
# The device comes first and the copy behind it, wherever --explain stands, and behind the dashes.
bring kept/one.dev device
keep device
tpnet backup device one
tpnet backup --explain device two
tpnet backup device --explain three
tpnet backup -- device four
equal one two
equal one three
equal one four
tpnet recover one
stay

story of_a_stop
# It waits as long as was typed, and else not at all: one second is enough where the device is let go behind one ask, and not behind two. Without
# --wait only the one ask follows that is made right behind the request.
bring kept/one.dev device
keep device
held 1
tpnet stop device
there device.stop
held 2
tpnet stop device
empty device.stop
remove device.stop
held 100
tpnet stop --explain device
empty device.stop
remove device.stop
held 1
tpnet stop device --wait 1
there device.stop
held 2
tpnet stop device --wait 1
empty device.stop
remove device.stop
held 100
tpnet stop --wait=4294967 -- device
there device.stop
stay

story in_use_told
# That another process has the device is told in one line, and in more where that is asked for.
bring kept/one.dev device
keep device
held 100
tpnet run device --turns 4
tpnet run device --turns 4 --explain
stay

story printed_once
# However many workers there are, a letter is printed by the first run or by the second, as the turns of the node and of the host come, and by one
# of them alone; it is confirmed, and no further run prints it. Each run says what recover says.
text net.txt node a 4\nport h\nwire a.0 h\n
image a.img
text letter A
tpnet format fresh net.txt . 65536
copy fresh device
tpnet run device --turns 40 --quantum=16 --workers 1 >first 2>err
tpnet recover device >next
equal err next
tpnet run device --turns 40 --quantum=16 --workers 1 >second 2>err
tpnet recover device >next
equal err next
tpnet run device --turns 40 --quantum=16 --workers 1 >third 2>err
tpnet recover device >next
equal err next
begins letter first
begins letter second
equal first second
empty third
tpnet port device 0
copy fresh device
tpnet run device --turns 40 --quantum=16 --workers 2 >first 2>err
tpnet recover device >next
equal err next
tpnet run device --turns 40 --quantum=16 --workers 2 >second 2>err
tpnet recover device >next
equal err next
tpnet run device --turns 40 --quantum=16 --workers 2 >third 2>err
tpnet recover device >next
equal err next
begins letter first
begins letter second
equal first second
empty third
tpnet port device 0
copy fresh device
tpnet run device --turns 40 --quantum=16 --workers 4 >first 2>err
tpnet recover device >next
equal err next
tpnet run device --turns 40 --quantum=16 --workers 4 >second 2>err
tpnet recover device >next
equal err next
tpnet run device --turns 40 --quantum=16 --workers 4 >third 2>err
tpnet recover device >next
equal err next
begins letter first
begins letter second
equal first second
empty third
tpnet port device 0
copy fresh device
tpnet run device --turns 40 --quantum=16 --workers 16 >first 2>err
tpnet recover device >next
equal err next
tpnet run device --turns 40 --quantum=16 --workers 16 >second 2>err
tpnet recover device >next
equal err next
tpnet run device --turns 40 --quantum=16 --workers 16 >third 2>err
tpnet recover device >next
equal err next
begins letter first
begins letter second
equal first second
empty third
tpnet port device 0

# What stop says where there is nobody to ask, and what a stream does that is asked.

story nobody
# Nobody has the device, so nobody is asked, at once also where that is to be waited for, and nothing is left. A request that was left goes, and
# what is none stays: a text, a folder, a link.
text net.txt node a 4\nport h\nwire a.0 h\n
image a.img 11 24 F2 54 41 F7 11 24 F2 41 FB 60 03
tpnet format device net.txt . 16384
keep device
tpnet stop device
there device.stop
tpnet stop device --wait=4294967
there device.stop
text device.stop
tpnet stop --wait 1 device
there device.stop
text device.stop precious
tpnet stop device
has device.stop precious
remove device.stop
text nothing
symlink nothing device.stop
tpnet stop device
empty device.stop
remove device.stop
folder device.stop
tpnet stop device
there device.stop
stay

story no_device
# What can't be a device, or isn't there, is refused as elsewhere, and no file is made beside it.
folder device
tpnet stop device
there device.stop
tpnet stop fresh --wait 60
there fresh.stop
tpnet stop /dev/null
text text precious
text text.stop
tpnet stop text --wait 60
there text.stop

story explained
# What --explain says of these.
text net.txt node a 4\nport h\nwire a.0 h\n
image a.img 11 24 F2 54 41 F7 11 24 F2 41 FB 60 03
tpnet format device net.txt . 16384
tpnet stop device --explain
text device.stop
tpnet stop device --explain
there device.stop
tpnet stop --explain fresh
folder folder
tpnet stop --explain folder
fill text 600 78
tpnet stop --explain text

story words_of_stop
# Words that ask for nothing, and words that ask how to call it.
tpnet stop 2>err
empty err
tpnet stop device device 2>err
empty err
tpnet stop device --wait 2>err
empty err
tpnet stop device --wait-lock 1 2>err
empty err
tpnet stop device --wait 0
tpnet stop device --wait 01
tpnet stop device --wait=4294968
tpnet stop --help >out
has out StillRunning
has out --wait <SECONDS>
tpnet help stop >then
equal out then
tpnet --help >out
has out \n  stop 

story asked
# A stream is asked by the file that its reader makes once the first bytes have come: it ends at status 0 long before all have come, says so, has
# confirmed what was written, and takes the file away. The next one goes on there: each byte has come once at the end.
text net.txt node a 4\nport h\nwire a.0 h\n
image a.img 11 24 F2 54 41 F7 11 24 F2 41 FB 60 03
tpnet format device net.txt . 16384
fill given 10000 61
reader-makes device.stop
tpnet run device --stream --quantum=64 --out 0=- --in 0=given >front 2>err
ends err  stopped\n
begins given front
equal given front
empty front
there device.stop
reader-makes
tpnet run device --stream --quantum=64 --out 0=- --in 0=given >rest 2>err
ends err  written 10000 confirmed 10000 gone\n
begins given rest
equal given rest
join both front rest
equal both given

story asked_before
# A request from before the stream had the device was for another process: it is taken away, and the stream runs as without. So it is where the
# stream is refused later.
text net.txt node a 4\nport h\nwire a.0 h\n
image a.img 11 24 F2 54 41 F7 11 24 F2 41 FB 60 03
tpnet format device net.txt . 16384
text given ab
text device.stop
tpnet run device --stream --quantum=64 --until-quiet --out 0=out --in 0=given 2>err
ends err quiet\n
equal out given
there device.stop
text device.stop
tpnet run device --stream --discard 3
there device.stop

story not_removed
# A request from before that can't be removed would end the stream at once, so that isn't begun. Calls fail in front of that, which open the device;
# where it can't be seen whether there is a request, none is seen; and behind it an end isn't opened, in any case.
text net.txt node a 4\nport h\nwire a.0 h\n
image a.img
tpnet format device net.txt . 16384
keep device
sweep alone all
text device.stop
tpnet run device --stream --out 0=nowhere/out
there device.stop
end
stay

story asked_of_one_that_fails
# The reader of one port asks the stream to stop by the bytes that it gets, and then the other port's file fails: the stream ends for that, and takes
# the request away.
text net.txt node a 4\nport x\nport y\nwire a.1 x\nwire a.0 y\n
image a.img 24 F2 51 24 42 FE 24 F2 24 41 FE 21 F5
tpnet format fresh net.txt . 32768
reader-makes made.stop
sweep alone device 2
copy fresh made
remove out_device
tpnet run made --stream --quantum=64 --out 0=- --out 1=out_device >out 2>err
there made.stop
end

story somebodys
# What stands at DEVICE.stop and is no empty file is somebody's: it ends no stream, and stays.
text net.txt node a 4\nport h\nwire a.0 h\n
image a.img 11 24 F2 54 41 F7 11 24 F2 41 FB 60 03
tpnet format device net.txt . 16384
text given ab
text device.stop precious
keep device.stop
tpnet run device --stream --quantum=64 --until-quiet --out 0=out --in 0=given 2>err
ends err quiet\n
stay
remove device.stop
text nothing
symlink nothing device.stop
tpnet run device --stream --quantum=64 --until-quiet --out 0=out --in 0=given 2>err
ends err quiet\n
empty device.stop
remove device.stop
folder device.stop
tpnet run device --stream --quantum=64 --until-quiet --out 0=out --in 0=given 2>err
ends err quiet\n
there device.stop
equal out given

story of_a_port
# DEVICE.stop takes no output, gives no input and is no standard stream, though it is empty: an end there would be taken for a request, and
# removed. It stays, and so does the device.
text net.txt node a 4\nport h\nwire a.0 h\n
image a.img 11 24 F2 54 41 F7 11 24 F2 41 FB 60 03
tpnet format device net.txt . 16384
text device.stop
keep device device.stop
tpnet run device --stream --discard 0 --in 0=device.stop
tpnet run device --stream --out 0=device.stop
stand stdout=device.stop
tpnet run device --stream --out 0=-
stand stdin=device.stop
tpnet run device --stream --discard 0 --in 0=-
stand stderr=device.stop
tpnet run device --stream --discard 0
stand
stay
remove device.stop
keep device
tpnet run device --stream --out 0=./device.stop
empty device.stop
stay

story others
# Another process has the device, so its stream is asked, once more where it was asked before; it may end right behind the request. What is there
# and is no request stays, and nobody is asked. The device stays as it is.
text net.txt node a 4\nport h\nwire a.0 h\n
image a.img
tpnet format device net.txt . 16384
keep device
held 100
# Who can't open it to write it has no right to stop it, either.
calls read-only
tpnet stop device
there device.stop
calls
tpnet stop device
empty device.stop
tpnet stop device
empty device.stop
remove device.stop
held 1
tpnet stop device
there device.stop
held 100
text device.stop precious
tpnet stop device
tpnet stop device --explain
has device.stop precious
remove device.stop
folder device.stop
tpnet stop device --wait=3
there device.stop
stay

story waited
# The device is waited for: it is asked for once, and then once a second. Here that is enough, also where it was asked before.
text net.txt node a 4\nport h\nwire a.0 h\n
image a.img
tpnet format device net.txt . 16384
keep device
held 1
tpnet stop device --wait 3
there device.stop
text device.stop
held 3
tpnet stop device --wait 3
there device.stop
# One second more was needed: the request stays.
held 4
tpnet stop device --wait 3
empty device.stop
remove device.stop
# Who has the device now took the first request for one from before, so there is another one.
held 100 2 device.stop
tpnet stop device --wait 3
empty device.stop
remove device.stop
# So is there one where it took the last one so: what is said to be asked is asked.
held 100 4 device.stop
tpnet stop device --wait 3
empty device.stop
remove device.stop
held 100
tpnet stop device --explain --wait=1
empty device.stop
held
tpnet stop device --wait 1
there device.stop
stay

story untold
# Where standard output can't be written the stream is asked, and that is said to have failed.
text net.txt node a 4\nport h\nwire a.0 h\n
image a.img
tpnet format device net.txt . 16384
keep device
held 100
shut gone
tpnet stop device
shut
empty device.stop
stay

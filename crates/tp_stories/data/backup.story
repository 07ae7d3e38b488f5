# What backup makes of a device, prints and refuses.

story made
# A node hands on what port 0 gets to port 1, and is in the midst of it. Nothing is written to the device, and nothing but COPY is made. It
# opens to the same, has the device's length, and goes on as the device does.
text net.txt node a 4\nport from\nport to\nwire a.0 from\nwire a.3 to\n
image a.img 11 24 F2 54 41 F7 11 24 F2 53 41 FB 60 02
text in ab
tpnet format device net.txt . 65536
tpnet run device --turns 3 --workers 1 --in in
keep device
tpnet backup device copy
# Its folder is synced behind the last name that is made or removed.
asked names
stay
there copy.part
length copy
tpnet recover copy
tpnet show device >shown
tpnet show copy >then
equal shown then
tpnet journal device >shown
tpnet journal copy >then
equal shown then
tpnet run device --turns 5 --workers 1 --in in
tpnet run copy --turns 5 --workers 1 --in in
tpnet show device >shown
tpnet show copy >then
equal shown then
tpnet run device --turns 0 --port 1
tpnet run copy --turns 0 --port 1
# The copy stays what it was when the device goes on, and so does a copy of a copy.
tpnet backup copy second
text in abc
tpnet run device --turns 0 --in in
tpnet recover second
folder place
tpnet backup device place/third
tpnet backup ./device ./fourth
tpnet recover place/third
tpnet recover fourth

story second_area
# The second area is the open one; what the first one has is of no use, and isn't in the copy, which compacts and goes on all the same.
text net.txt node a 4\nport h\nwire a.0 h\n
image a.img
tpnet format device net.txt . 16384
tpnet compact device
tpnet run device --turns 2 --workers 1 --quantum 16
tpnet backup device copy
tpnet show device >shown
tpnet show copy >then
equal shown then
show copy 512 1
show copy 16896 1
tpnet compact copy
tpnet run copy --turns 0
# One that is longer than its areas is copied with that length.
bring kept/one.dev device
length device
cut device 40000
tpnet backup device longer
length longer
tpnet recover longer

story there
# Nothing that is there is written over or removed, be it a file, a folder, a link that leads nowhere, or the device under any of its names.
bring kept/one.dev device
text copy precious
link device other
folder place
symlink nowhere dangling
keep device copy
tpnet backup device copy
tpnet backup device device
tpnet backup device other
tpnet backup device place
tpnet backup device place/
tpnet backup device dangling
text dangling.part theirs
tpnet backup device dangling
stay
there nowhere
there copy.part
tpnet backup device copy --explain
tpnet backup device device --explain
tpnet backup device other --explain
# So is what stands where the copy is made.
remove copy
text copy.part precious
keep device copy.part
tpnet backup device copy
tpnet backup device copy --explain
stay
there copy
remove copy.part
tpnet backup device copy
# The device is the file in which its copy would be made.
copy device new.part
link new.part also
keep new.part
tpnet backup new.part new
tpnet backup new.part new --explain
tpnet backup also new --explain
stay
there new

story no_place
# A copy that can't be made is refused before the device is read: here that is damaged.
bring kept/one.dev device
set device 10 01
keep device
tpnet backup device nowhere/copy
tpnet backup device device/copy
tpnet backup device ''
tpnet backup device nowhere/copy --explain
stay
there nowhere

story refused
# A damaged device, one without an open area, one that is none, a folder, and one that isn't there. Nothing is left of a copy.
bring kept/one.dev device
set device 10 01
keep device
tpnet backup device copy
tpnet backup device copy --explain
stay
bring kept/one.dev device
set device 512 00
keep device
tpnet backup device copy
stay
set device 7 09
tpnet backup device copy
set device 0 55
tpnet backup device copy
tpnet backup device copy --explain
tpnet backup nowhere copy
tpnet backup nowhere copy --explain
folder place
tpnet backup place copy
there copy
there copy.part

story rights
# A copy has its device's rights, whatever the umask leaves of those that a new file gets.
bring kept/one.dev device
grant device 600
tpnet backup device copy600
rights copy600
grant device 640
tpnet backup device copy640
rights copy640
grant device 644
tpnet backup device copy644
rights copy644
grant device 666
tpnet backup device copy666
rights copy666
grant device 400
tpnet backup device copy400
rights copy400
grant device 440
tpnet backup device copy440
rights copy440
grant device 604
tpnet backup device copy604
rights copy604
grant device 755
tpnet backup device copy755
rights copy755
rights device
# From the first byte on it has no more of them: here all calls fail from one on, and that tells when its file is made, when it gets them, and that
# it has them as it is filled, as it has both names, and as it is COPY alone.
grant device 640
sweep onward all 30
remove copy
remove copy.part
tpnet backup device copy 2>err
rights copy.part
rights copy
end

story usurped
# Another process moves a file of its own over COPY.part, right before that gets its second name: it is neither taken for the copy nor removed.
bring kept/one.dev device
text theirs theirs
copy theirs other
keep device theirs
rival links other
tpnet backup device copy
there other
equal copy.part theirs
stay
remove copy
remove copy.part
# So it is right before that is looked at: nothing gets the copy's name.
copy theirs other
rival looks other
tpnet backup device copy
there other
equal copy.part theirs
there copy
stay
story words
# Words that are refused before any file is opened.
bring kept/one.dev device
tpnet backup 2>err
starts err error: 
tpnet backup device 2>err
starts err error: 
has err <COPY>
tpnet backup device copy more 2>err
starts err error: 
tpnet backup device copy --new 2>err
starts err error: 
tpnet backup device copy --wait-lock 1 2>err
starts err error: 
tpnet backup device copy --explain --explain
there copy
tpnet backup --help >out
has out \n  CopyExists    COPY is there
has out \n  PartExists    COPY.part is there
has out \n  Busy          another
has out <DEVICE> <COPY>
tpnet help backup >then
equal out then
tpnet --help >out
has out \n  backup 
# An option of the program's own is none of the command.
tpnet --explain backup device copy
there copy

story untold
# Where standard output can't be written the copy is made, and that isn't said to be done.
text net.txt node a 4\nport h\nwire a.0 h\n
image a.img
tpnet format device net.txt . 16384
tpnet show device >shown
keep device
shut gone
tpnet backup device copy --explain 2>err
shut
starts err tpnet: DeviceFailed\n
ends err Standard output can't be written.\n
tpnet show copy >then
equal shown then
there copy.part
stay

# No file has two parts in a stream, whatever it is named: what is refused, and that each file stays as it was.

story names
# Names that stand for one file, among them such of files that are not there yet.
# A node hands on what port 0 gets to port 1, which has put out abcde, and nothing is confirmed.
text net.txt node a 4\nport from\nport to\nwire a.0 from\nwire a.3 to\n
image a.img 11 24 F2 54 41 F7 11 24 F2 53 41 FB 60 02
text in abcde
tpnet format device net.txt . 65536
tpnet run device --turns=200 --workers=1 --in in >out 2>err
fill there 0 00
symlink fresh to_fresh
symlink there to_there
symlink device to_device
symlink in to_in
link there also_there
link device also_device
link in also_in
keep device in there fresh net.txt a.img
tpnet run device --stream --quantum=64 --until-quiet --out 0=fresh --out 1=fresh <in 2>err
starts err tpnet: --out 1 goes into the file of 
stay
remove fresh
keep device in there fresh net.txt a.img
tpnet run device --stream --quantum=64 --until-quiet --out 0=fresh --out 1=./fresh <in 2>err
starts err tpnet: --out 1 goes into the file of 
stay
remove fresh
keep device in there fresh net.txt a.img
tpnet run device --stream --quantum=64 --until-quiet --out 0=fresh --out 1=to_fresh <in 2>err
starts err tpnet: --out 1 goes into the file of 
stay
remove fresh
keep device in there fresh net.txt a.img
tpnet run device --stream --quantum=64 --until-quiet --out 1=to_fresh --out 0=./fresh <in 2>err
starts err tpnet: --out 0 goes into the file of 
stay
remove fresh
keep device in there fresh net.txt a.img
tpnet run device --stream --quantum=64 --until-quiet --out 0=there --out 1=./there <in 2>err
starts err tpnet: --out 1 goes into the file of 
stay
remove fresh
keep device in there fresh net.txt a.img
tpnet run device --stream --quantum=64 --until-quiet --out 0=to_there --out 1=there <in 2>err
starts err tpnet: --out 1 goes into the file of 
stay
remove fresh
keep device in there fresh net.txt a.img
tpnet run device --stream --quantum=64 --until-quiet --out 1=there --out 0=also_there <in 2>err
starts err tpnet: --out 0 goes into the file of 
stay
remove fresh
keep device in there fresh net.txt a.img
tpnet run device --stream --quantum=64 --until-quiet --discard 0 --out 1=./device <in 2>err
starts err tpnet: --out 1 goes into the file of 
stay
remove fresh
keep device in there fresh net.txt a.img
tpnet run device --stream --quantum=64 --until-quiet --discard 0 --out 1=to_device <in 2>err
starts err tpnet: --out 1 goes into the file of 
stay
remove fresh
keep device in there fresh net.txt a.img
tpnet run device --stream --quantum=64 --until-quiet --discard 0 --out 1=also_device <in 2>err
starts err tpnet: --out 1 goes into the file of 
stay
remove fresh
keep device in there fresh net.txt a.img
tpnet run device --stream --quantum=64 --until-quiet --discard 0 --out 1=./in --in 0=in <in 2>err
starts err tpnet: --out 1 goes into the file of 
stay
remove fresh
keep device in there fresh net.txt a.img
tpnet run device --stream --quantum=64 --until-quiet --discard 0 --out 1=in --in 0=to_in <in 2>err
starts err tpnet: --out 1 goes into the file of 
stay
remove fresh
keep device in there fresh net.txt a.img
tpnet run device --stream --quantum=64 --until-quiet --discard 0 --out 1=also_in --in 0=in <in 2>err
starts err tpnet: --out 1 goes into the file of 
stay
remove fresh

story standard
# Standard streams that are one of the files.
# A node hands on what port 0 gets to port 1, which has put out abcde, and nothing is confirmed.
text net.txt node a 4\nport from\nport to\nwire a.0 from\nwire a.3 to\n
image a.img 11 24 F2 54 41 F7 11 24 F2 53 41 FB 60 02
text in abcde
tpnet format device net.txt . 65536
tpnet run device --turns=200 --workers=1 --in in >out 2>err
fill there 0 00
symlink fresh to_fresh
symlink there to_there
symlink device to_device
symlink in to_in
link there also_there
link device also_device
link in also_in
stand stdout=there
keep device in there fresh net.txt a.img
tpnet run device --stream --quantum=64 --until-quiet --out 0=- --out 1=there <in 2>err
starts err tpnet: --out 1 goes into the file of 
stay
remove fresh
stand stdout=there
keep device in there fresh net.txt a.img
tpnet run device --stream --quantum=64 --until-quiet --out 1=./there --out 0=- <in 2>err
starts err tpnet: --out 0 goes into the file of 
stay
remove fresh
stand stdout=there stderr=there
keep device in there fresh net.txt a.img
tpnet run device --stream --quantum=64 --until-quiet --discard 0 --out 1=- <in 2>err
starts err tpnet: --out 1 goes into the file of 
stay
remove fresh
stand stdout=there stderr=also_there
keep device in there fresh net.txt a.img
tpnet run device --stream --quantum=64 --until-quiet --out 0=fresh --out 1=- <in 2>err
starts err tpnet: --out 1 goes into the file of 
stay
remove fresh
stand stdin=in
keep device in there fresh net.txt a.img
tpnet run device --stream --quantum=64 --until-quiet --discard 0 --out 1=in --in 0=- <in 2>err
starts err tpnet: --out 1 goes into the file of 
stay
remove fresh
stand stdout=device
keep device in there fresh net.txt a.img
tpnet run device --stream --quantum=64 --until-quiet --discard 0 --out 1=- <in 2>err
starts err tpnet: --out 1 goes into the file of 
stay
remove fresh
stand stdout=in
keep device in there fresh net.txt a.img
tpnet run device --stream --quantum=64 --until-quiet --discard 0 --out 1=- --in 0=in <in 2>err
starts err tpnet: --out 1 goes into the file of 
stay
remove fresh
stand stdout=in stdin=also_in
keep device in there fresh net.txt a.img
tpnet run device --stream --quantum=64 --until-quiet --discard 0 --out 1=- --in 0=- <in 2>err
starts err tpnet: --out 1 goes into the file of 
stay
remove fresh
stand stdout=fresh
keep device in there fresh net.txt a.img
tpnet run device --stream --quantum=64 --until-quiet --out 1=- --out 0=fresh <in 2>err
starts err tpnet: --out 1 goes into the file of 
stay
remove fresh
stand stderr=there
keep device in there fresh net.txt a.img
tpnet run device --stream --quantum=64 --until-quiet --discard 0 --out 1=to_there <in 2>err
starts err tpnet: --out 1 goes into the file of 
stay
remove fresh
stand stderr=fresh
keep device in there fresh net.txt a.img
tpnet run device --stream --quantum=64 --until-quiet --discard 0 --out 1=./fresh <in 2>err
starts err tpnet: --out 1 goes into the file of 
stay
remove fresh

story over_device
# Standard output is the device's file, under any of its names: commands end with status 2, print nothing, and change nothing.
text net.txt node a 4\nport h\nwire a.0 h\n
image a.img
tpnet format device net.txt . 16384
symlink device to_device
link device also_device
keep device
stand stdout=device
tpnet show device 2>err
empty err
tpnet status device 2>err
empty err
tpnet recover to_device 2>err
empty err
tpnet journal also_device 2>err
empty err
tpnet run device --turns 4 2>err
empty err
tpnet compact device 2>err
empty err
tpnet format device net.txt . 16384 2>err
empty err
tpnet node device 0
tpnet port device 0
tpnet waits device
tpnet image device 0
tpnet trace device 0
# It is that first, whatever else it is: the input of a run, and standard error.
tpnet run device --turns 4 --in device
stand stdout=device stderr=device
tpnet run device --turns 4
stand stdout=a.img stderr=a.img
tpnet run device --turns 4 --in a.img
stand
stay

story apart
# Files of their own are taken, also where standard streams are files, or both are no file, as a terminal. What no port uses is not
# looked at, and two inputs may be one file.
# A node hands on what port 0 gets to port 1, which has put out abcde, and nothing is confirmed.
text net.txt node a 4\nport from\nport to\nwire a.0 from\nwire a.3 to\n
image a.img 11 24 F2 54 41 F7 11 24 F2 53 41 FB 60 02
text in abcde
tpnet format device net.txt . 65536
tpnet run device --turns=200 --workers=1 --in in >out 2>err
fill there 0 00
symlink fresh to_fresh
symlink there to_there
symlink device to_device
symlink in to_in
link there also_there
link device also_device
link in also_in
stand
tpnet run device --stream --quantum=64 --until-quiet --out 0=none --out 1=one --in 0=in <in 2>err
stand
tpnet run device --stream --quantum=64 --until-quiet --out 0=none --out 1=one --in 0=in --in 1=in <in 2>err
stand stdout=one stdin=in
tpnet run device --stream --quantum=64 --until-quiet --discard 0 --out 1=one --in 0=in <in 2>err
stand stdout=there stdin=in stderr=net.txt
tpnet run device --stream --quantum=64 --until-quiet --out 0=none --out 1=- --in 0=- <in 2>err
stand stdout=. stdin=. stderr=.
tpnet run device --stream --quantum=64 --until-quiet --discard 0 --out 1=- --in 0=- <in 2>err
equal one in
empty none

story input_printed_over
# A run whose standard output is the file of its input, under whatever name, would take what its port puts out for further input. It is refused, and
# nothing is changed; where another file is there, all goes as ever. A stream is refused so above.
text net.txt node a 4\nport h\nwire a.0 h\n
image a.img 11 24 F2 54 41 F7 11 24 F2 41 FB 60 03
tpnet format device net.txt . 16384
text given abc
link given also_given
symlink given to_given
fill other 0 00
keep device given
stand stdout=given
tpnet run device --turns 30 --workers 1 --in given
tpnet run device --turns 0 --in also_given
tpnet run device --turns 30 --workers 1 --in to_given --explain
stay
stand stdout=other
tpnet run device --turns 30 --workers 1 --in given >out
equal out given
# A file that has no bytes to lose may be both.
stand stdout=/dev/null
tpnet run device --turns 0 --in /dev/null >out
stand

story said_over
# A run whose standard output and standard error are one file, under whatever name, would have what it says written over what its port puts out. It
# is refused, and nothing is changed; where they are two files, or one that is no regular file, as a terminal, all goes as ever. A stream is refused so above.
# Nothing is lost by what another command prints.
text net.txt node a 4\nport h\nwire a.0 h\n
image a.img
tpnet format device net.txt . 16384
copy device second_device
fill there 0 00
fill other 0 00
link there also_there
symlink there to_there
keep device there
stand stdout=there stderr=there
tpnet run device --turns 4 --workers 1
stand stdout=there stderr=also_there
tpnet run device --turns 4 --workers 1 --in net.txt
stand stdout=to_there stderr=there
tpnet run device --turns 4 --workers 1 --explain
stay
stand stdout=there stderr=there
tpnet show device >out
stand stdout=. stderr=.
tpnet run device --turns 4 --workers 1
stand stdout=there stderr=other
tpnet run second_device --turns 4 --workers 1

story unmade
# What can be told of files that are there is told before any file is made: the output in front of it isn't made then.
text net.txt node a 4\nport x\nport y\nport z\nwire a.0 x\nwire a.1 y\nwire a.3 z\n
image a.img 11 24 F2 54 41 F7
text in abcde
tpnet format device net.txt . 65536
fill there 0 00
symlink there to_there
symlink in to_in
symlink device to_device
keep device in there
tpnet run device --stream --quantum=64 --until-quiet --out 0=new --out 1=to_device --discard 2 2>err
starts err tpnet: --out 1 goes into the file of 
there new
tpnet run device --stream --quantum=64 --until-quiet --out 0=new --out 1=to_in --discard 2 --in 0=in 2>err
starts err tpnet: --out 1 goes into the file of 
there new
tpnet run device --stream --quantum=64 --until-quiet --out 0=new --out 1=there --out 2=to_there 2>err
starts err tpnet: --out 2 goes into the file of 
there new
stand stdin=in
tpnet run device --stream --quantum=64 --until-quiet --out 0=new --out 1=to_in --discard 2 --in 0=- 2>err
starts err tpnet: --out 1 goes into the file of 
there new
stand stdout=there
tpnet run device --stream --quantum=64 --until-quiet --out 0=new --out 1=- --out 2=to_there 2>err
starts err tpnet: --out 2 goes into the file of 
there new
stand stdout=device
tpnet run device --stream --quantum=64 --until-quiet --out 0=new --out 1=- --discard 2 2>err
starts err tpnet: --out 1 goes into the file of 
there new
stand stderr=there
tpnet run device --stream --quantum=64 --until-quiet --out 0=new --out 1=to_there --discard 2 2>err
starts err tpnet: --out 1 goes into the file of 
there new
stand
# Nor is it where an input can't be opened.
tpnet run device --stream --quantum=64 --until-quiet --out 0=new --discard 1 --discard 2 --in 0=nowhere 2>err
starts err tpnet: ReadFailed
there new
stay
tpnet run device --stream --quantum=64 --until-quiet --out 0=new --discard 1 --discard 2 2>err
empty new

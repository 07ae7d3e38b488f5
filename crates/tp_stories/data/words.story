# Words that ask for nothing, and words that ask how to call the program.

story nothing
# A word is missing, unknown, one too many, or out of its range. That comes before any fault of a file: here there is no
# image, and the topology is malformed. Nothing is printed on standard output, something on standard error, and no file is made.
text net.txt node\n
tpnet 2>err
empty err
tpnet fly 2>err
empty err
tpnet try a.img --steps four 2>err
empty err
tpnet try --turns 4 2>err
empty err
tpnet try a.img --turns four 2>err
empty err
tpnet try a.img --turns 4294967296 2>err
empty err
tpnet try a.img --turns +4 2>err
empty err
tpnet try a.img --turns 0004 2>err
empty err
tpnet try a.img --turns '' 2>err
empty err
tpnet format device net.txt 2>err
empty err
tpnet format device net.txt . x 2>err
empty err
tpnet format device net.txt . +16384 2>err
empty err
tpnet format device net.txt . 016384 2>err
empty err
tpnet format device net.txt . 1099511627777 2>err
empty err
tpnet format device net.txt . 18446744073709551616 2>err
empty err
tpnet recover 2>err
empty err
tpnet recover device --workers 0 2>err
empty err
tpnet recover device --workers 17 2>err
empty err
tpnet show device device 2>err
empty err
tpnet run device 2>err
empty err
tpnet run --turns 4 2>err
empty err
tpnet run device --turns 04 2>err
empty err
tpnet run device --turns 4294967296 2>err
empty err
tpnet run device --turns 4 --turns 4 2>err
empty err
tpnet run device --turns 4 --workers 0 2>err
empty err
tpnet run device --turns 4 --workers 17 2>err
empty err
tpnet run device --turns 4 --quantum=0 2>err
empty err
tpnet run device --turns 4 --quantum=4097 2>err
empty err
tpnet run device --turns 4 --spare +1 2>err
empty err
tpnet run device --turns 4 --every 0 2>err
empty err
tpnet run device --turns 4 --every 4294967296 2>err
empty err
tpnet run device --turns 4 --port '' 2>err
empty err
tpnet run device --turns 4 --in 2>err
empty err
tpnet run device --turns 4 --new 2>err
empty err
tpnet port device 0 --outputs --pending 2>err
empty err
there device

story help
# Asking is no fault: the answer comes on standard output, and names what is asked for. The program names itself, though these stories call it other.
tpnet run 2>err
has err Usage: tpnet run
has err other
tpnet --help >out
has out Usage: tpnet
tpnet -h >out
has out recover
tpnet help >out
has out format
tpnet help show >out
has out NoOpenArea
has out --json
tpnet try --help >out
has out BadImage
tpnet format --help >out
has out AreaFull
tpnet recover -h >out
has out Damaged
has out --workers <W>
tpnet run --help >out
has out JournalFull
tpnet format --help >out
has out all but DeviceFailed leave a file that is there as it was
tpnet compact --help >out
has out how many entries the journal takes
tpnet help run >out
has out --quantum <Q>
tpnet --version >out
has out tpnet 0.1.0\nmade for Rattle's logic dac8208d650f15bf\nproved if rt run or rt ci built it\n

story help_of_each
# Of each command what it does, its words, and what it refuses.
tpnet try --help
tpnet trace --help
tpnet check --help
tpnet format --help
tpnet run --help
tpnet run --stream --help
tpnet stop --help
tpnet compact --help
tpnet backup --help
tpnet recover --help
tpnet show --help
tpnet status --help
tpnet waits --help
tpnet node --help
tpnet image --help
tpnet journal --help
tpnet port --help

story said_of_a_line
# What is said of a line that no command takes: a word is missing, is there twice, or is there beside one that it doesn't go with.
tpnet
tpnet show
tpnet run device
tpnet show device --json --json
tpnet run device --turns 4 --turns 5
tpnet run device --turns 4 --in
tpnet try a.img --turns 4 --steps 5
tpnet try a.img --turns 4 --bytes 5
tpnet format device net.txt . 16K --area 16K
tpnet trace device 1 --steps 4
tpnet waits device --json --dot
tpnet port device 0 --outputs --pending
tpnet try a.img --in 0=x --in 1=y --fly
tpnet run device --stream --discard 0 --discard 1 --fly
# What clap doesn't say: these options don't go with the other form of a trace.
tpnet trace device 1 --in 0=x
tpnet trace a.img --from 4
tpnet trace a.img --bytes 4

story with_stream
# Options that go with --stream alone, a number that is none, and a device that is no regular file, run and looked at: it isn't opened.
text net.txt node a 4\nport h\nwire a.0 h\n
image a.img 11 24 F2 54 41 F7 11 24 F2 41 FB 60 03
tpnet format device net.txt . 16384
tpnet run device --turns=4 --out 0=x
tpnet run device --stop-on-halt
tpnet show device --stream
# A dash is a standard stream as an end alone; as a stop file it is a name.
tpnet run device --stream --turns 0 --out 0=- --stop-file -
tpnet compact device --wait-lock=-1
tpnet run device --turns 4 --port 01
tpnet run /dev/null --turns=4
tpnet show /dev/null
symlink /dev/null null_device
tpnet run null_device --turns=4
asked write

story many
# 256 words are read, the program's name among them, and 257 are not. (Here neither are words that ask for something.)
tpnet show a a a a a a a a a a a a a a a a a a a a a a a a a a a a a a a a a a a a a a a a a a a a a a a a a a a a a a a a a a a a a a a a a a a a a a a a a a a a a a a a a a a a a a a a a a a a a a a a a a a a a a a a a a a a a a a a a a a a a a a a a a a a a a a a a a a a a a a a a a a a a a a a a a a a a a a a a a a a a a a a a a a a a a a a a a a a a a a a a a a a a a a a a a a a a a a a a a a a a a a a a a a a a a a a a a a a a a a a a a a a a a a a a a a a a a a a a a a a a a a a a a a a a a a a a a a a a a 2>err
has err more than 256 words
tpnet show a a a a a a a a a a a a a a a a a a a a a a a a a a a a a a a a a a a a a a a a a a a a a a a a a a a a a a a a a a a a a a a a a a a a a a a a a a a a a a a a a a a a a a a a a a a a a a a a a a a a a a a a a a a a a a a a a a a a a a a a a a a a a a a a a a a a a a a a a a a a a a a a a a a a a a a a a a a a a a a a a a a a a a a a a a a a a a a a a a a a a a a a a a a a a a a a a a a a a a a a a a a a a a a a a a a a a a a a a a a a a a a a a a a a a a a a a a a a a a a a a a a a a a a a a a a a a a a 2>err
has err more than 256 words

story stream_options
# Each option that goes with --stream alone says so without it, however it is written; no device is looked for.
tpnet run device --turns 4 --out=0=x
tpnet run device --turns 4 --have 0=1
tpnet run device --turns 4 --discard=0
tpnet run device --turns 4 --until-quiet
tpnet run device --turns 4 --stop-file=stop
tpnet run device --turns 4 --progress
tpnet run device --turns 4 --progress-every=4

story progress_seconds
# The seconds of a line by time are 1 to 3600; no device is looked for.
tpnet run device --stream --progress-every 0
tpnet run device --stream --progress-every=3601
tpnet run device --stream --progress-every 1h

story greatest
# The greatest numbers that are taken, and one more. A device is there: so an area of 2^40 bytes is refused for that.
text net.txt node a 4\nport h\nwire a.0 h\n
image a.img
tpnet format device net.txt . 16384
copy device before
tpnet format --new device net.txt . 1099511627776
tpnet format --new device net.txt . 1099511627777 2>err
tpnet journal device --from 18446744073709551615
tpnet journal device --from 18446744073709551616 2>err
tpnet run device --stream --turns 0 --out 0=- --have 0=18446744073709551615
tpnet run device --stream --turns 0 --out 0=- --have 0=18446744073709551616 2>err
tpnet run device --turns 0 --workers 16 --quantum 4096 --spare 4 --every 4294967295 --wait-lock 4294967
# One of each that is out of its range with a stream.
tpnet run device --stream --turns 0 --discard 0 --quantum 4097 2>err
tpnet run device --stream --turns 0 --discard 0 --quantum 0 2>err
tpnet run device --stream --turns 0 --discard 0 --every 0 2>err
tpnet run device --stream --turns 0 --discard 8 2>err
tpnet run device --stream --turns 0 --out 0= 2>err
equal device before

story workers_of_a_stream
# How many threads make a stream's turns is a decimal from 1 to 16, told as that of `run` is; no device is looked for before. Of several numbers
# that are none the first is told, in the order of the help's list but for --turns and --progress-every, which come first.
tpnet run device --stream --discard 0 --workers 0
tpnet run device --stream --discard 0 --workers 17
tpnet run device --stream --discard 0 --workers=256
tpnet run device --stream --discard 0 --workers=257
tpnet run device --stream --discard 0 --workers 4294967297
tpnet run device --stream --discard 0 --workers x
tpnet run device --stream --discard 0 --workers +1
tpnet run device --stream --discard 0 --workers=-1
tpnet run device --stream --discard 0 --workers 02
tpnet run device --stream --discard 0 --workers ''
tpnet run device --stream --discard 0 --workers 2>err
empty err
tpnet run device --stream --discard 0 --workers 2 --workers 2 2>err
empty err
tpnet run device --stream --workers 0 --progress-every 0
tpnet run device --stream --quantum 0 --workers 0
# Both ends of the range are taken, also where there are fewer processes. Short turns leave, byte for byte, what they leave by one.
text net.txt node a 4\nport h\nwire a.0 h\n
image a.img 11 24 F2 54 41 F7 11 24 F2 41 FB 60 03
tpnet format one net.txt . 16384
copy one sixteen
text given abc
tpnet run one --stream --until-quiet --workers 1 --in 0=given --out 0=out 2>err
equal given out
tpnet run sixteen --stream --until-quiet --workers 16 --in 0=given --out 0=then 2>said
equal given then
equal err said
equal one sixteen
ends err  quiet\n

story long_turns
# A process counts down from 16,384, sends the next number, and again, 20 times: its turns have a thousand steps, so workers make them. What comes
# out is what comes out by one, and nothing is left to do then.
text net.txt node a 4\nport h\nwire a.0 h\n
image a.img 24 20 20 40 D2 72 60 8F D2 72 A2 60 08 27 2F 2F 2F 2F 2F 6F 40 71 FE 71 81 D1 71 21 C4 61 A1 21 F5
tpnet format one net.txt . --area 256K
copy one three
tpnet run one --stream --until-quiet --workers 1 --out 0=out 2>err
ends err  quiet\n
length out
show out 0 20
tpnet run three --stream --until-quiet --workers 3 --out 0=then 2>err
ends err  quiet\n
equal out then
tpnet recover three >next
tpnet run three --stream --until-quiet --workers 16 --out 0=then 2>err
ends err  quiet\n
tpnet recover three >later
equal next later
equal out then

story read_once
# The first word is the command. The name of another one behind it is a word as any other, an option of another one is none, and no file is made.
tpnet stop backup
tpnet stop stop --wait 1
tpnet backup stop run
tpnet run stop --turns 0
tpnet run backup --stream --discard 0
tpnet stop run device 2>err
empty err
tpnet backup stop device copy 2>err
empty err
tpnet stop device --turns 4 2>err
empty err
tpnet stop device --stream 2>err
empty err
tpnet stop device --stop-file at 2>err
empty err
tpnet backup device copy --stream 2>err
empty err
tpnet backup device copy --wait 1 2>err
empty err
tpnet run device --turns 1 --wait 1 2>err
empty err
tpnet run device --stream --wait 1 2>err
empty err
tpnet run device --stream --discard 0 --port 0 2>err
empty err
tpnet compact device --stream 2>err
empty err
tpnet stop device --wait=4294967297
tpnet stop device --wait ''
tpnet stop device --wait 1 --wait 1 2>err
empty err
# A word behind the dashes is a name, but --stream is looked for among all words.
tpnet stop -- --wait
tpnet backup -- --explain copy
tpnet backup --explain -- --explain copy
tpnet run -- --stream 2>err
starts err error: the following required arguments were not provided:\n
there copy
there run
there stop.stop
there backup.stop

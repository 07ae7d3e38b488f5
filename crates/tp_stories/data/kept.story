# Devices that were kept as bytes, made by programs of November 2026. What they open to stays so; see kept/README.md.

story one
# One node, whose letter was printed and confirmed.
bring kept/one.dev device
length device
tpnet recover device
tpnet show device
tpnet journal device
tpnet node device 0
tpnet port device 0
# Two rounds more make two runs: the node takes nothing, and sends nothing.
tpnet run device --turns 4 --workers 1 --quantum 16
# The journal has room for 105 entries: in 16384 bytes, of which 13002 are the cut, what closes it and what is kept back.
tpnet compact device
tpnet show device

story two
# Two nodes, killed in the middle of a checkpoint: the images of both stand in the second area, but not yet lines and ports, and its gate is
# closed. What opens is the first area, with all of its journal.
bring kept/two.dev device
length device
show device 25088 24
show device 33645 16
tpnet recover device
tpnet show device
tpnet journal device
tpnet node device 0
tpnet node device 1
tpnet port device 0
# Two rounds make 11 entries, as the second reader says, and the port gets 2 letters more; then all are confirmed.
tpnet run device --turns 6 --workers 1 --quantum 16 --every 4294967295
tpnet compact device
tpnet show device

story sixteen
# Sixteen nodes in a chain, in the least area, which has room for one entry: it is there, and the journal is full. The file lacks the
# second area, which had no byte but 00.
bring kept/sixteen.dev device
length device
cut device 166620
tpnet recover device
tpnet show device
tpnet journal device
tpnet node device 0
tpnet node device 1
tpnet node device 15
tpnet port device 0
# No further turn is journalled before the journal is empty; then there is room for one entry again.
tpnet run device --turns 17 --workers 1 --quantum 16 --every 4294967295
tpnet compact device
tpnet run device --turns 17 --workers 1 --quantum 16 --every 4294967295
tpnet show device

story wide
# Seventeen nodes in the least area, with a wide head and areas with turns; there is one entry. The file lacks the second area, as above.
bring kept/wide.dev device
length device
cut device 176468
tpnet recover device
tpnet show device
tpnet journal device
tpnet compact device
tpnet run device --turns 18 --workers 1 --quantum 16 --every 4294967295
tpnet journal device

story turned
# One node behind a checkpoint, with a turn and a run in the journal.
bring kept/turned.dev device
length device
tpnet recover device
tpnet show device
tpnet journal device
tpnet status device
# Two rounds more make two runs: the node takes nothing, and sends nothing.
tpnet run device --turns 4 --workers 1 --quantum 16
tpnet compact device

# Takes bytes from link 0 and sends them on link 3, for ever.
process start 80000200

place = 1               # the word of the workspace where a byte goes

start:
    ldlp place
    mint
    ldnlp 4             # link0.in, in 3 bytes where ldc takes 8
    ldc 1
    in
    ldlp place
    mint
    ldnlp 3             # link3.out
    ldc 1
    out
    j start

# Reads lines from link 0, and puts each out backwards. A line has at most 80 characters; a longer one is parted there.
include "io.inc"
    process start main

character = 1           # words of the workspace
count = 2
most = 80

start:
    ldc 0
    stl count
next:
    receive link0.in, character, 1
    ldlp character
    lb
    eqc '\n'
    cj keep
    j backwards
keep:
    ldlp character
    lb
    ldl count
    ldc line
    bsub                # the address of the next free byte
    sb
    ldl count
    adc 1
    stl count
    ldl count
    eqc most
    cj next
backwards:
    ldl count
    cj done
    ldl count
    adc -1
    stl count
    ldc link0.out
    ldl count
    ldc line
    bsub
    lb
    outbyte
    j backwards
done:
    put link0.out, '\n'
    j start

line:
    room most
align
    workspace main 3

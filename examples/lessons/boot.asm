# Begins as a T414 that boots from its link 0. The first byte says what follows:
#   0       an address and a word: the word goes there
#   1       an address: the word there is sent back
#   2..255  so many bytes of code: they go to 80000048, and begin there, with the workspace at the next word behind them
include "io.inc"
    process start main

first = 1
address = 2
value = 3
code = 80000048

at 80000E00
start:
    ldc 0
    stl first
    receive link0.in, first, 1
    ldl first
    cj poke
    ldl first
    eqc 1
    cj load
    receive link0.in, address, 4
    ldl address
    ldc link0.out
    ldc 4
    out
    j start
poke:
    receive link0.in, address, 4
    receive link0.in, value, 4
    ldl value
    ldl address
    stnl 0
    j start
load:
    ldc code
    ldc link0.in
    ldl first
    in
    ldl first
    ldc code + 3
    sum
    ldc -4
    and
    gajw                # the workspace begins behind the code
    ldc code
    gcall

align
    workspace main 4

# Sends `count` numbers, 1 to 1024, on link 0, and then 0. After each it works for a while. `seed` and the others are set by --define.
include "../common.inc"
    process start main

seed = 1
count = 10
work = 100

state = 1               # variables
left = 2
number = 3
loops = 4

start:
    set state, seed
    set left, count
next:
    ldl state
    ldc 1103515245
    prod
    ldc 12345
    sum
    stl state
    ldl state
    ldc 16
    shr
    ldc 1023
    and
    adc 1
    stl number
    send link0.out, number, 4
    set loops, work
busy:
    increase loops, -1
    ldl loops
    eqc 0
    cj busy
    increase left, -1
    ldl left
    eqc 0
    cj next
    set number, 0
    send link0.out, number, 4
    stopp

align
    workspace main 5

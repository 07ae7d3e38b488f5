# Prints 1! to 12!, with two procedures that call themselves. `call` puts the return address and the stack of three into four new words
# of the workspace: word 1 is the A of the caller.
include "io.inc"
    process start main

number = 1

start:
    ldc 1
    stl number
next:
    ldl number
    call factorial
    call print
    put link0.out, '\n'
    ldl number
    adc 1
    stl number
    ldl number
    eqc 13
    cj next
    stopp

factorial:              # of A, into A
    ldl 1
    eqc 0
    cj product
    ldc 1
    ret
product:
    ldl 1
    adc -1
    call factorial
    ldl 1
    mul
    ret

print:                  # A in decimal
    ldl 1
    ldc 10
    div
    cj digit            # no digits come before this one
    ldl 1
    ldc 10
    div
    call print
digit:
    ldc link0.out
    ldl 1
    ldc 10
    rem
    adc '0'
    ajw -1              # `outbyte` writes the word 0, where the return address is
    outbyte
    ajw 1
    ret

align
    workspace main 2 below 64

# A process of low priority hands a byte to one of high priority, which goes on at once: it notes `H` before the low one notes `l` again.
# At the end the notes are put out.
include "io.inc"
    process low main
    process high above high

at.notes = 1
rounds = 2

macro note letter
    ldc letter
    ldc notes
    ldnl 0
    sb
    ldc notes
    ldnl 0
    adc 1
    ldc notes
    stnl 0
endmacro

low:
    ldc 3
    stl rounds
again:
    note 'l'
    put handed, 0
    note '.'
    ldl rounds
    adc -1
    stl rounds
    ldl rounds
    eqc 0
    cj again
    ldc first
    stl at.notes
show:
    ldc link0.out
    ldl at.notes
    lb
    outbyte
    ldl at.notes
    adc 1
    stl at.notes
    ldl at.notes
    ldc notes
    ldnl 0
    diff
    eqc 0
    cj show
    put link0.out, '\n'
    stopp

high:
    receive handed, 1, 1
    note 'H'
    j high

align
notes:                  # where the next note goes
    word first
first:
    room 32
align
channel handed
    workspace main 3
    workspace above 2

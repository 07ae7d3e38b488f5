# Takes a character from whichever of two channels has one; if both have one, from the one that `disc` names first. One process sends
# ten `q`, another one three `S`. The characters are put out in the order in which they were taken.
include "io.inc"
    process choose chooser
    process quick one
    process slow two

character = 1
left = 1
loops = 2
count = 2
letters = 13

choose:
    alt
    ldc quicks
    ldc 1
    enbc
    ldc slows
    ldc 1
    enbc
    altwt               # waits until one of the two is ready
    ldc quicks
    ldc 1
    ldc from.quick - chosen
    disc
    ldc slows
    ldc 1
    ldc from.slow - chosen
    disc
    altend              # goes to the first one that was ready
chosen:
from.quick:
    receive quicks, character, 1
    j keep
from.slow:
    receive slows, character, 1
keep:
    ldlp character
    lb
    ldl count
    ldc taken
    bsub
    sb
    ldl count
    adc 1
    stl count
    ldl count
    eqc letters
    cj choose
    ldc 0
    stl count
show:
    ldc link0.out
    ldl count
    ldc taken
    bsub
    lb
    outbyte
    ldl count
    adc 1
    stl count
    ldl count
    eqc letters
    cj show
    put link0.out, '\n'
    stopp
taken:
    room letters

macro sends to, letter, times, work
    ldc times
    stl left
.next:
    ldc work
    stl loops
.work:
    ldl loops
    adc -1
    stl loops
    ldl loops
    eqc 0
    cj .work
    put to, letter
    ldl left
    adc -1
    stl left
    ldl left
    eqc 0
    cj .next
    stopp
endmacro

quick:
    sends quicks, 'q', 10, 10
slow:
    sends slows, 'S', 3, 60

align
channel quicks
channel slows
    workspace chooser 3
    workspace one 3
    workspace two 3

# One of the workers, who all have this program. The router, of high priority, takes packets from the worker before it and passes them on, but a job if
# its own process is free. That one works beside it, at low priority.
include "farm.inc"
    process router route high
    process work worker

busy = 1                # the router's variable
column = 1              # the worker's variables
total = 2
index = 3               # with the word after it, what `lend` counts by
left = 4

router:
    set busy, 0
choose:
    alt
    ldc link0.in
    ldc 1
    enbc
    ldc done
    ldc 1
    enbc
    altwt
    ldc link0.in
    ldc 1
    ldc from.ring - chosen
    disc
    ldc done
    ldc 1
    ldc from.worker - chosen
    disc
    altend
chosen:
from.ring:
    receive.at link0.in, packet, packet.size
    load packet
    ldc job + answer
    and
    cj keep             # a row of the right matrix
    load packet
    ldc job
    and
    cj pass             # another worker's answer
    ldl busy
    cj take
pass:
    send.at link1.out, packet, packet.size
    j choose
keep:
    ldc packet + 4
    load packet
    ldc row.size
    prod
    ldc matrix
    sum
    ldc row.size
    move
    j pass
take:
    set busy, 1
    send.at todo, packet, packet.size
    j choose
from.worker:
    receive.at done, packet, packet.size
    set busy, 0
    j pass

work:
    receive.at todo, mine, packet.size
    load mine
    adc answer - job
    ldc result
    stnl 0
    set column, 0
next.column:
    set total, 0
    set index, 0
    set left, columns
term:
    ldl index
    ldc mine + 4
    wsub
    ldnl 0              # the row at `index`
    ldl index
    ldc columns
    prod
    ldl column
    sum
    ldc matrix
    wsub
    ldnl 0              # the matrix at `index`, `column`
    prod
    ldl total
    sum
    stl total
    ldlp index
    ldc summed - term
    lend
summed:
    ldl total
    ldl column
    ldc result + 4
    wsub
    stnl 0
    increase column, 1
    repeat.below column, columns, next.column
    send.at done, result, packet.size
    j work

align
channel todo
channel done
packet:
    room packet.size
mine:
    room packet.size
result:
    room packet.size
matrix:
    room columns * row.size
    workspace route 2
    workspace worker 5

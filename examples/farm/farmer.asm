# Takes two matrices from the port, as words: first the right one, then the left one. Sends the rows of the right one to all workers, and each row of
# the left one to whichever is free. Puts out the product, a row a line. No more packets are under way than there are workers: so each job finds
# one that is free, and the ring can't be full.
include "farm.inc"
port.in = link2.in
port.out = link2.out
    process start main

sent = 1                # variables
back = 2                # how many packets have come back
row = 3
column = 4

start:
    set sent, 0
    set back, 0
again:
    ldl sent
    eqc columns + rows
    cj more
    j gather            # all were sent
more:
    ldl sent
    ldl back
    diff
    eqc workers
    cj ready
    j gather
ready:
    repeat.below sent, columns, right
    ldl sent
    adc job - columns
    j head
right:
    ldl sent
head:
    ldc packet
    stnl 0
    receive.at port.in, packet + 4, row.size
    send.at link1.out, packet, packet.size
    increase sent, 1
    j again
gather:
    ldl back
    eqc columns + rows
    cj wait
    j print
wait:
    receive.at link0.in, packet, packet.size
    increase back, 1
    load packet
    ldc answer
    and
    cj again            # a row of the right matrix has been round
    ldc packet + 4
    load packet
    ldc answer
    diff
    ldc row.size
    prod
    ldc product
    sum                 # where this row of the product goes
    ldc row.size
    move
    j again

print:
    set row, 0
next.row:
    set column, 0
next.column:
    ldl row
    ldc columns
    prod
    ldl column
    sum
    ldc product
    wsub
    ldnl 0
    call decimal
    increase column, 1
    ldl column
    eqc columns
    cj space
    put port.out, '\n'
    increase row, 1
    repeat.below row, rows, next.row
    stopp
space:
    put port.out, ' '
    j next.column

decimals port.out

align
packet:
    room packet.size
product:
    room rows * row.size
    workspace main 5 below below.decimal

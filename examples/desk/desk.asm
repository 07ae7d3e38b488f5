# A desk with three clients, on links 1, 2 and 3, which send numbers. A door of high priority takes each number as soon as it comes, as long as
# there is room for it, and puts it into a queue. A clerk of low priority asks the door for one number after another, and counts in how many steps it
# comes to 1: an even number is halved, an odd one becomes 3 n + 1. A third process, of low priority, too, counts primes meanwhile.
# At the end the clerk puts out, for each client, how many numbers there were, the sum of their steps, and the most steps; and then the primes.
include "../common.inc"
    process door entrance high
    process clerk desk
    process counter side.desk

slots = 8               # of the queue, two words each: a client, and a number
below.this = 2000       # where the primes end

number = 1              # the door's variables
used = 2                # slots of the queue
first = 3               # the slot that is taken next
open.1 = 4              # 1 until client 1 has sent its last number
open.2 = 5
open.3 = 6
has.room = 7
has.job = 8
slot = 9                # the address of a slot
guard.1 = 10            # 1 if a number of client 1 may come now
guard.2 = 11
guard.3 = 12

macro enable link, guard
    ldc link
    ldl guard
    enbc
    stl slot            # takes the guard, which `enbc` leaves, off the stack
endmacro
macro disable link, guard, way
    ldc link
    ldl guard
    ldc way - chosen
    disc
endmacro
macro both guard, one, other
    ldl one
    ldl other
    and
    stl guard
endmacro
macro take link, is.open, client        # a number goes to the end of the queue; 0 says that there are no more
    receive link, number, 4
    ldl number
    cj .ends
    ldl first
    ldl used
    sum
    ldc slots - 1
    and
    ldc 8
    prod
    ldc queue
    sum
    stl slot
    ldc client
    ldl slot
    stnl 0
    ldl number
    ldl slot
    stnl 1
    increase used, 1
    j choose
.ends:
    set is.open, 0
    j choose
endmacro

door:
    set used, 0
    set first, 0
    set open.1, 1
    set open.2, 1
    set open.3, 1
choose:
    ldc slots
    ldl used
    gt
    stl has.room
    ldl open.1
    ldl open.2
    or
    ldl open.3
    or
    eqc 0
    ldl used
    or
    eqc 0
    eqc 0
    stl has.job         # also if none will come any more: the clerk is told so
    both guard.1, open.1, has.room
    both guard.2, open.2, has.room
    both guard.3, open.3, has.room
    alt
    enable link1.in, guard.1
    enable link2.in, guard.2
    enable link3.in, guard.3
    enable ask, has.job
    altwt
    disable link1.in, guard.1, from.1   # the first of these that is ready is taken
    disable link2.in, guard.2, from.2
    disable link3.in, guard.3, from.3
    disable ask, has.job, from.clerk
    altend
chosen:
from.1:
    take link1.in, open.1, 1
from.2:
    take link2.in, open.2, 2
from.3:
    take link3.in, open.3, 3
from.clerk:
    receive ask, number, 4
    ldl used
    cj nothing
    ldl first
    ldc 8
    prod
    ldc queue
    sum
    ldc given
    ldc 8
    out
    ldl first
    adc 1
    ldc slots - 1
    and
    stl first
    increase used, -1
    j choose
nothing:
    send.at given, no.job, 8
    stopp

client = 1              # the clerk's variables: the first two are what it is given
value = 2
steps = 3
row = 4

clerk:
    send ask, steps, 4
    receive given, client, 8
    ldl client
    cj all
    set steps, 0
again:
    ldl value
    eqc 1
    cj step
    j known
step:
    increase steps, 1
    ldl value
    ldc 1
    and
    cj even
    ldl value
    ldc 3
    prod
    adc 1
    stl value
    j again
even:
    ldl value
    ldc 1
    shr
    stl value
    j again
known:
    ldl client
    ldc 12
    prod
    ldc table - 12
    sum
    stl row             # the address of the client's row
    ldl row
    ldnl 0
    adc 1
    ldl row
    stnl 0
    ldl row
    ldnl 1
    ldl steps
    sum
    ldl row
    stnl 1
    ldl steps
    ldl row
    ldnl 2
    gt
    cj clerk
    ldl steps
    ldl row
    stnl 2
    j clerk
all:
    ldc table
    stl row
    set steps, 0
print:
    ldl row
    ldnl 0
    call decimal
    increase row, 4
    increase steps, 1
    ldl steps
    ldc 3
    rem
    cj line.end
    put link0.out, ' '
    j print
line.end:
    put link0.out, '\n'
    repeat.below steps, 9, print
    receive counted, value, 4
    ldl value
    call decimal
    put link0.out, '\n'
    stopp

decimals link0.out

primes = 1              # the third process's variables
candidate = 2
divisor = 3

counter:
    set primes, 0
    set candidate, 2
next:
    set divisor, 2
try:
    ldl divisor
    ldl divisor
    prod
    ldl candidate
    gt
    cj divide
    increase primes, 1  # no divisor is left to be tried
    j tried
divide:
    ldl candidate
    ldl divisor
    rem
    cj tried
    increase divisor, 1
    j try
tried:
    increase candidate, 1
    repeat.below candidate, below.this, next
    send counted, primes, 4
    stopp

align
channel ask
channel given
channel counted
no.job:
    word 0, 0
queue:
    room 8 * slots
table:                  # of each client: numbers, the sum of their steps, the most
    room 3 * 12
    workspace entrance 13
    workspace desk 5 below below.decimal
    workspace side.desk 4

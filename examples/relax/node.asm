# One of 8 x 8 nodes that share a square plate. The upper edge of the plate is hot, the other three are cold. Each node has a block of 4 x 4 points.
# In a sweep each point becomes the mean of its four neighbours. Before it a node exchanges the edges of its block with the nodes around it.
#
# All nodes have this program. A node first learns from above or from the left where it is, and how many sweeps there are; the first one learns it
# from the port. At the end the lines of all points go left and then up, and the first node puts them out.
include "../common.inc"
    process start main

side = 4                # points of a block, each way
stride = side + 2       # with those of the neighbours around
across = 8              # nodes, each way
last = across - 1
hot = 10000
edge.size = 4 * side

row = 1                 # variables; the first three are the message that says where a node is
column = 2
sweeps = 3
up = 4                  # 1 if there is a node above, and so on
right = 5
down = 6
left = 7
here = 8                # the address of a point
index = 9               # with the word after it, what `lend` counts by
count = 10
line = 11
rest = 12               # how many pieces of lines are still to come
from = 13               # from this link
printed = 14

# rows and columns of a block, and those of the neighbours around it
first.row = field + 4 * (stride + 1)
last.row = field + 4 * (side * stride + 1)
row.above = field + 4
row.below = last.row + 4 * stride
first.column = first.row
last.column = first.row + 4 * (side - 1)
column.before = first.row - 4
column.after = last.column + 4

macro is.other variable, place, end     # 1 if the place isn't at that end of the plate
    ldl place
    eqc end
    eqc 0
    stl variable
endmacro
macro send.row there, link, address
    ldl there
    cj .nobody
    send.at link, address, edge.size
.nobody:
endmacro
macro receive.row there, link, address
    ldl there
    cj .nobody
    receive.at link, address, edge.size
.nobody:
endmacro
macro send.column there, link, address
    ldl there
    cj .nobody
    ldc address
    call gather
    send.at link, edge, edge.size
.nobody:
endmacro
macro receive.column there, link, address
    ldl there
    cj .nobody
    receive.at link, edge, edge.size
    ldc address
    call scatter
.nobody:
endmacro
macro send.edges
    send.row up, link0.out, first.row
    send.column right, link1.out, last.column
    send.row down, link2.out, last.row
    send.column left, link3.out, first.column
endmacro
macro receive.edges     # in the order in which the neighbours send them
    receive.row down, link2.in, row.below
    receive.column left, link3.in, column.before
    receive.row up, link0.in, row.above
    receive.column right, link1.in, column.after
endmacro

start:
    alt
    ldc link0.in
    ldc 1
    enbc
    ldc link3.in
    ldc 1
    enbc
    altwt
    ldc link0.in
    ldc 1
    ldc from.above - chosen
    disc
    ldc link3.in
    ldc 1
    ldc from.left - chosen
    disc
    altend
chosen:
from.above:
    receive link0.in, row, 12
    j placed
from.left:
    receive link3.in, row, 12
placed:
    is.other up, row, 0
    is.other right, column, last
    is.other down, row, last
    is.other left, column, 0
    ldl right
    cj tell.below
    increase column, 1
    send link1.out, row, 12
    increase column, -1
tell.below:             # only in the first column: the others are told from the left
    ldl left
    cj first.of.row
    j told
first.of.row:
    ldl down
    cj told
    increase row, 1
    send link2.out, row, 12
    increase row, -1
told:                   # a node says so to the one above, which sends nothing down before: it would be taken for a place
    ldl up
    cj heat
    send link0.out, row, 4
    j below
heat:                   # the hot edge
    set index, 0
    set count, side
heat.next:
    ldc hot
    ldl index
    ldc row.above
    wsub
    stnl 0
    ldlp index
    ldc below - heat.next
    lend
below:
    ldl down
    cj sweep
    receive link2.in, index, 4

sweep:
    ldl sweeps
    cj over
    increase sweeps, -1
    ldl row
    ldl column
    sum
    ldc 1
    and
    cj even             # of two neighbours one is even: it sends first
    receive.edges
    send.edges
    j compute
even:
    send.edges
    receive.edges
compute:
    ldc first.row
    stl here
    set line, 0
line.next:
    set index, 0
    set count, side
point:
    ldl here
    ldnl -stride
    ldl here
    ldnl stride
    sum
    ldl here
    ldnl -1
    sum
    ldl here
    ldnl 1
    sum
    ldc 2
    shr
    ldl here
    stnl stride * stride        # into `fresh`
    increase here, 4
    ldlp index
    ldc counted - point
    lend
counted:
    increase here, 8
    increase line, 1
    repeat.below line, side, line.next
    # all lines at once, with the columns beside them: cold at the edge of the plate, else they come anew before the next sweep
    ldc first.row + 4 * stride * stride
    ldc first.row
    ldc 4 * (side * stride - 2)
    move
    j sweep

gather:                 # a procedure: the column that begins at A goes into `edge`
    set 2, 0
    set 3, side
gather.next:
    ldl 1
    ldnl 0
    ldl 2
    ldc edge
    wsub
    stnl 0
    increase 1, 4 * stride
    ldlp 2
    ldc gathered - gather.next
    lend
gathered:
    ret

scatter:                # a procedure: `edge` goes into the column that begins at A
    set 2, 0
    set 3, side
scatter.next:
    ldl 2
    ldc edge
    wsub
    ldnl 0
    ldl 1
    stnl 0
    increase 1, 4 * stride
    ldlp 2
    ldc scattered - scatter.next
    lend
scattered:
    ret

over:
    set from, link1.in
    set line, 0
    set printed, 0
own:                    # the node's own piece of a line, and then those from the right
    ldl line
    ldc 4 * stride
    prod
    ldc first.row
    sum
    ldc edge
    ldc edge.size
    move
    ldc last
    ldl column
    sub
    stl rest
piece:
    ldl left
    cj in.first.column
    send.at link3.out, edge, edge.size
    j more
in.first.column:
    ldl up
    cj print
    send.at link0.out, edge, edge.size
more:
    ldl rest
    cj line.done
    increase rest, -1
    ldc edge
    ldl from
    ldc edge.size
    in
    j piece
line.done:
    increase line, 1
    repeat.below line, side, own
    ldl left
    cj from.below
    stopp
from.below:             # in the first column: all that comes from below, once
    ldl from
    ldc link2.in
    diff
    cj finished
    set from, link2.in
    ldc last
    ldl row
    sub
    ldc side * across
    prod
    stl rest
    j more
finished:
    stopp

print:
    set index, 0
print.next:
    ldl index
    ldc edge
    wsub
    ldnl 0
    call decimal
    increase index, 1
    increase printed, 1
    ldl printed
    ldc side * across
    rem
    cj line.end
    put link0.out, ' '
    j spaced
line.end:
    put link0.out, '\n'
spaced:
    repeat.below index, side, print.next
    j more

decimals link0.out

align
field:
    room 4 * stride * stride
fresh:
    room 4 * stride * stride
edge:
    room edge.size
    workspace main 15 below below.decimal

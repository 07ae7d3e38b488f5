# Counts up and down for ever, without a channel: a compute loop.
process start 80000200

up = 1                  # words of the workspace
down = 2
never = 3

start:
    ldl up
    adc 1
    stl up
    ldl down
    adc -1
    stl down
    ldl never           # 0, so cj jumps
    cj next
next:
    j start

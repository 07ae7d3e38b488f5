# Takes words from link 0, and puts out each on link 1 as decimal text with LF, without its sign.
    process start main

number = 1              # words of the workspace
front = 2               # the address of the foremost digit

start:
    ldlp number
    ldc link0.in
    ldc 4
    in
    ldc 0
    ldl number
    gt                  # 1 where number is below 0
    cj digits
    ldc 0
    ldl number
    sub
    stl number
digits:
    ldc text.end - 1    # LF is there already
    stl front
digit:                  # the last digit first
    ldl front
    adc -1
    stl front
    ldl number
    ldc 10
    rem
    adc '0'
    ldl front
    sb
    ldl number
    ldc 10
    div
    stl number
    ldl number
    eqc 0
    cj digit            # until nothing is left
    ldc text.end
    ldl front
    sub
    stl number          # how many bytes there are, from the foremost digit to LF
    ldl front
    ldc link1.out
    ldl number
    out
    j start

text:
    room 10
    string "\n"
text.end:

align
    workspace main 3

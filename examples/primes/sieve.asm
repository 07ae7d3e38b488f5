# Takes words from link 0. Keeps the first one that no sieve before it kept, and passes on, on link 1, what it doesn't divide.
# A number that was kept goes on below 0, as -2 for 2, so that it passes the other sieves.
    process start main

number = 1              # words of the workspace
kept = 2                # 0 as long as there is none

start:
    ldlp number
    ldc link0.in
    ldc 4
    in
    ldc 0
    ldl number
    gt                  # 1 where number is below 0
    cj new
    j pass
new:
    ldl kept
    cj keep
    ldl number
    ldl kept
    rem
    cj start            # it is divided, and goes no further
pass:
    ldlp number
    ldc link1.out
    ldc 4
    out
    j start
keep:
    ldl number
    stl kept
    ldc 0
    ldl number
    sub
    stl number
    j pass

align
    workspace main 3

# Sends 2, 3, 4, .. on link 1, each as a word, up to 'last', and then stops.
last = 960              # below the square of the first prime that no sieve keeps, 31

    process start main

number = 1              # words of the workspace

start:
    ldc 2
    stl number
again:
    ldlp number
    ldc link1.out
    ldc 4
    out
    ldl number
    adc 1
    stl number
    ldl number
    ldc last
    gt                  # 1 where number is above last
    cj again
    stopp

align
    workspace main 2

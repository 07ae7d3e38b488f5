# Sends the letter A on link 0, and then goes round for ever.
process start 80000200

start:
    ldc link0.out
    ldc 'A'
    outbyte
end:
    j end

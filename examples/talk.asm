# Two low processes that send a word to and fro over the channel 'words'.
process start 80000200

start:
    ldc second - first
    ldc 80000280        # the second's workspace
    startp
first:                  # puts a word out for ever
    ldlp 1
    ldc words
    ldc 4
    out
    j first

at 80000180
second:                 # takes it
    ldlp 1
    ldc words
    ldc 4
    in
    j second

at 80000300
channel words

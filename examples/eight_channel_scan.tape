# The readings of one round of eight_channel_scan.c: vibrating-wire piezometers
# in digits, which are Hz squared over 1000. Two for each channel: one while the
# line settles, and the one that counts.
# channel 0
4211
8412
# channel 1
8420
8397
# channel 2
8391
8254
# channel 3
8260
7988
# channel 4
7979
9103
# channel 5
9066
9041
# channel 6
9044
6875
# channel 7
6902
7230

# The readings of one round of piezometer_pair.c, in millimetres of head.
# upstream of the core, three times
812
815
813
# downstream of it, three times
590
588
604

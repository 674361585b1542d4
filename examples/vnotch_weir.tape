# The readings of one round of vnotch_weir.c: the head over the notch in tenths
# of a millimetre, four times, with a little swell. After a wet week.
1063
1058
1066
1059

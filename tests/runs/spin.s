# A loop with no end.
again:  j    again

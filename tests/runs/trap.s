# A load from a page that is not there.
        lui  t0, 0x50000
        lb   t1, 0(t0)

# A jump to a label that stands nowhere.
        nop
        j    away

; Frames that a sender sends first after a reset: their sequence number is 0.
; It is the last byte of the frame, so the frame's length leads to it.
        ld len
        sub #1
        tax
        ldb [x + 0]
        jne #0, drop
        ret #-1
drop:   ret #0

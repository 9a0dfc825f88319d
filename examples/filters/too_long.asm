; Frames of virtual link 6 above its Smax of 600 bytes. A recording leaves out the frame check
; sequence, which counts 4 bytes of Smax: frames of 597 bytes and more on the wire.
        ldh [4]
        jne #6, drop
        ld len
        jlt #597, drop
        ret #-1
drop:   ret #0

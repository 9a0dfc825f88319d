; The first 64 bytes of each frame of virtual link 5.
; Bytes 4 and 5 of an AFDX frame hold its virtual link (ARINC 664 Part 7).
        ldh [4]
        jne #5, drop
        ret #64
drop:   ret #0

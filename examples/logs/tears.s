; A game loop that tears its picture, for a 6502 whose vector RAM is at 4000.
; Word zero, at 4000 and 4001, is the jump to one half: half 0 from 4002 on, or half 1 from 4402 on.
; Byte addresses in the log are those from 4000 on. What it logged of two frames is tears.log.

loop:   jsr build       ; writes the next frame into the half that free names
        lda free        ; E0 or E2
        sta $4001       ; flips: the next run draws what was built
        eor #$02
        sta free        ; and from now on the other half is written,
        lda $2002       ; which the generator draws still, as long as it isn't halted:
        bmi loop        ; here the loop goes on without waiting for it
        sta $3000       ; else strobes
        jmp loop

; The same game loop, which waits for the generator before it writes into the half that was drawn.
; What it logged of the same frames is waits.log. Before the loop the program waits in this way,
; too; then it sets $4000 to $01, the low byte of word zero, and free to $E0: half 0 is written
; first.

loop:   jsr build       ; writes the next frame into the half that free names
        lda free        ; E0 or E2
        sta $4001       ; flips: the next run draws what was built
        eor #$02
        sta free        ; the other half is the one to write,
wait:   lda $2002       ; once no run draws it any more
        bmi wait
        sta $3000       ; strobes: this run begins at word zero, and so draws what was built
        jmp loop

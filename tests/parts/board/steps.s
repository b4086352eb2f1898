; Single steps for cc65's sim65: reads records of eleven bytes, lets each instruction run, and
; writes eight bytes of what it left. definition.c makes the records.

.import _read, _write, pushax
.export _main

RECORD = $7200          ; size, three bytes of the instruction, A, X, Y, P, and what the cells hold
RESULT = $7220          ; A, X, Y, P, the cells, and whether a branch was taken
BUFFER = $7300          ; where the instruction runs
INDEXED = $7000         ; a page, of which Y names a cell
ABSOLUTE = $7100        ; a cell
ZEROPAGE = $F8          ; a cell
POINTER = $F0           ; to INDEXED

.segment "CODE"

_main:  lda #0
        sta POINTER
        lda #>INDEXED
        sta POINTER + 1
next:   lda #0          ; read(0, RECORD, 11)
        tax
        jsr pushax
        lda #<RECORD
        ldx #>RECORD
        jsr pushax
        lda #11
        ldx #0
        jsr _read
        cmp #11
        bne ended
        jsr run_one
        lda #1          ; write(1, RESULT, 8)
        ldx #0
        jsr pushax
        lda #<RESULT
        ldx #>RESULT
        jsr pushax
        lda #8
        ldx #0
        jsr _write
        jmp next
ended:  lda #0
        tax
        rts

run_one:
        ldx #2          ; the instruction, a jump after it, and one more for a branch that is taken
copy:   lda RECORD + 1,x
        sta BUFFER,x
        dex
        bpl copy
        ldx RECORD
        lda #$4C
        sta BUFFER,x
        sta BUFFER + 3,x
        lda #<straight
        sta BUFFER + 1,x
        lda #>straight
        sta BUFFER + 2,x
        lda #<taken
        sta BUFFER + 4,x
        lda #>taken
        sta BUFFER + 5,x
        lda RECORD + 8
        sta ZEROPAGE
        ldy RECORD + 6
        lda RECORD + 9
        sta INDEXED,y
        lda RECORD + 10
        sta ABSOLUTE
        lda RECORD + 7
        pha
        lda RECORD + 4
        ldx RECORD + 5
        plp
        jmp BUFFER

straight:
        php
        sta RESULT
        lda #0
        beq both        ; always
taken:  php
        sta RESULT
        lda #1
both:   sta RESULT + 7
        stx RESULT + 1
        sty RESULT + 2
        pla
        and #$CF        ; N, V, D, I, Z and C
        sta RESULT + 3
        cld
        lda ZEROPAGE
        sta RESULT + 4
        ldy RECORD + 6
        lda INDEXED,y
        sta RESULT + 5
        lda ABSOLUTE
        sta RESULT + 6
        rts

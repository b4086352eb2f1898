; Calls each routine of the driver, for sim65 and for cycles.c: both must take the same cycles
; and answer the same sum of the vector RAM. The hardware is plain memory here, and the flag is 0.

.include "dvg.inc"
.export _main

.segment "ZEROPAGE"

at:     .res 2
sum:    .res 1
rounds: .res 1

.segment "CODE"

_main:  lda #0                  ; halted
        sta DVG_FLAG
        jsr dvg_reset
        jsr dvg_run
        lda #20
        sta rounds
round:  lda #<long
        ldx #>long
        jsr dvg_offer
        lda rounds              ; some of it by ticks
        jsr dvg_ticks
        jsr dvg_run
        jsr dvg_redraw
        jsr dvg_run
        lda #<short
        ldx #>short
        jsr dvg_offer
        lda #0
        jsr dvg_ticks
        jsr dvg_run
        jsr build
        dec rounds
        bne round

        lda #<DVG_RAM           ; the sum of all bytes, each turned by the ones before
        sta at
        lda #>DVG_RAM
        sta at + 1
        lda #0
        sta sum
        ldx #8
        tay
add:    lda sum
        asl a
        adc (at),y
        sta sum
        iny
        bne add
        inc at + 1
        dex
        bne add
        lda sum
        rts

; A frame that is full: puts, pairs and copies until there is no room, and the HALT.
build:  jsr dvg_open
more:   lda rounds
        sta dvg_x
        sta dvg_y
        lda #3
        sta dvg_x + 1
        sta dvg_y + 1
        lda #$50
        jsr dvg_labs
        bcs full
        lda rounds
        ldx #$F1
        jsr dvg_put
        jsr dvg_pair
        lda #$FE                ; -500 and 256 + rounds, and then 256 and 512
        sta dvg_x + 1
        lda #$0C
        sta dvg_x
        lda #1
        sta dvg_y + 1
        lda #$97
        jsr dvg_vector
        lda #0
        sta dvg_x
        sta dvg_y
        lda #2
        sta dvg_x + 1
        lda #$47
        jsr dvg_vector
        lda #<long
        ldx #>long
        ldy rounds
        iny
        tya
        asl a
        tay
        lda #<long
        jsr dvg_copy
        jmp more
full:   jsr dvg_close
        jmp dvg_run

        .res 12                 ; so that no branch ends a page, where sim65 2.18 adds a cycle to it

.segment "RODATA"

long:   .word 511
        .repeat 511, i
        .word (i * 40503 + 12345) & $FFFF
        .endrepeat
short:  .word 120
        .repeat 120, i
        .word (i * 30011 + $C000) & $E1FF
        .endrepeat

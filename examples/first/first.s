; Shows one table after the other, each for 32 milliseconds.

.include "dvg.inc"

WATCHDOG = $3400

.segment "ZEROPAGE"
beats:  .res 1              ; NMIs since the last picture, each 4 ms
frame:  .res 1              ; the table that is shown

.segment "CODE"
reset:  lda #DVG_START      ; first of all: after power-on dvg_phase is a byte of chance
        sta dvg_phase
        sei
        cld
        ldx #$FF
        txs
        jsr dvg_reset
        jsr dvg_run         ; boots: waits until the generator is halted
        lda #0
        sta frame

show:   ldy frame
        cpy #tables_high - tables_low
        bcs again
        ldx tables_high,y
        lda tables_low,y
        jsr dvg_offer       ; takes the frame
        jsr dvg_run         ; writes it, waits for the generator, and sends the strobe
wait:   sta WATCHDOG        ; or the board resets the processor
        lda beats
        cmp #8
        bcc wait
        lda #0
        sta beats
        inc frame
        lda frame
        cmp #<(tables_high - tables_low)
        bcc show
again:  lda #0
        sta frame
        jmp show

nmi:    inc beats
irq:    rti

.segment "DATA"
.include "tables.inc"
        .assert tables_high - tables_low < 256, error, "first.s shows at most 255 frames"

.segment "VECTORS"
        .word nmi, reset, irq

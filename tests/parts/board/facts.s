; For tests/board --judge: a program that counts how often the clock is set and clear, and keeps the
; watchdog back until byte $10 is set. The other facts of the board are read and written from
; outside, by facts.lua.

.include "asteroids.inc"
.include "dvg.inc"

.segment "CODE"
reset:  sei
        cld
        ldx #$FF
        txs
        inx
        stx $10
rest:   inc $11
        bit IN_CLOCK
        bmi set
        inc $12             ; clear
        jmp dog
set:    inc $13
dog:    lda $10
        bne rest
        sta WATCHDOG
        beq rest            ; always
nmi:
irq:    rti

.segment "VECTORS"
        .word nmi, reset, irq

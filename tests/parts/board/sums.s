; For tests/board: does each sum with D set, ADC and then SBC, with C clear and then set, of each A
; and each operand. What A is then goes to `result`, and N, V, Z and C to `flags`. Then it sums for
; ever what it finds, in all modes, and mostly with D set: each sum begins with the A and the flags
; that the one before left, amid what sets and clears D, pushes and pulls flags, compares, counts
; and returns as from an NMI. After each, A goes to `result`, and all flags, as PHP pushes them, to
; `flags`. There sums.lua takes both, and definition.c.

.include "asteroids.inc"
.include "dvg.inc"

carry   = $40
first   = $41
operand = $42
result  = $43
flags   = $44
random  = $45                   ; four bytes
kept    = $49                   ; A, the flags and X
points  = $50                   ; eight pointers into the lower half of `page`
cells   = $60                   ; sixteen bytes
page    = $0300

.segment "CODE"

.macro all_sums operation
        .local each_carry, each_first, each_operand
        lda #0
        sta carry
each_carry:
        lda #0
        sta first
each_first:
        ldx #0
each_operand:
        stx operand
        lda carry
        lsr a                   ; into C
        lda first
        sed
        operation operand
        php
        cld
        sta result
        pla
        and #%11000011
        sta flags
        sta WATCHDOG
        inx
        bne each_operand
        inc first
        bne each_first
        inc carry
        lda carry
        cmp #2
        bne each_carry
.endmacro

; An instruction. Then A and the flags are shown, and stay.
.macro sum instruction
        instruction
        php
        sta result
        pla
        sta flags
        pha
        lda result
        plp
.endmacro

; RTI goes on behind it, with A, X and the flags as they are.
.macro resume
        .local here
        sta kept
        stx kept + 2
        php
        pla
        tax
        lda #>here
        pha
        lda #<here
        pha
        txa
        pha
        lda kept
        rti
here:   php
        ldx kept + 2
        plp
.endmacro

; X is even, and 14 at most; Y is 127 at most.
.macro sums k
        sum {adc #(k * 37 + 9) & 255}
        sum {sbc cells + k}
        sum {adc cells + 1,x}
        inc cells + k
        php
        sum {sbc page + 5 * k}
        adc page + 7 * k
        sum {sbc page,x}
        sum {adc page,y}
        plp
        sum {adc (points),y}
        dec page + 7 * k
        sum {sbc (points,x)}
        sum {adc (points,x)}
        cmp cells + 3
        sum {sbc (points + 2),y}
        rol page + 5 * k
        sum {adc cells + k + 1}
        sec
        sum {sbc page + 7 * k}
        resume
        clc
        sum {adc page + 5 * k,y}
        cld
        sum {adc page,x}
        sum {sbc #(k * 91 + 5) & 255}
        sed
        sum {sbc page,y}
        cpx cells + k
        sum {adc page + 9 * k}
        pha
        sum {eor #k * 31 & 255}
        pla
        sum {sbc cells,x}
        sum {sbc page + 3 * k,x}
.endmacro

; A random byte. D is clear.
any:    inc random
        lda random + 1
        eor random + 3
        eor random
        sta random + 1
        clc
        adc random + 2
        sta random + 2
        lsr a
        eor random + 1
        clc
        adc random + 3
        sta random + 3
        rts

; Fills cells and pointers anew, and a byte of the page; X and Y, too.
refill: ldx #14
each:   jsr any
        sta cells,x
        jsr any
        sta cells + 1,x
        jsr any
        and #%01111111
        sta points,x
        lda #>page
        sta points + 1,x
        dex
        dex
        bpl each
        jsr any
        tay
        jsr any
        sta page,y
        jsr any
        and #%00001110
        tax
        jsr any
        and #%01111111
        tay
        rts

reset:  sei
        ldx #$FF
        txs
        all_sums adc
        all_sums sbc
        ldx #0
        stx random
        stx random + 1
        stx random + 2
        stx random + 3
begin:  jsr any
        sta page,x
        inx
        bne begin
next:   sta kept
        php
        pla
        ora #%00001000          ; D
        sta kept + 1
        cld
        sta WATCHDOG
        jsr refill
        lda kept + 1
        pha
        lda kept
        plp
        .repeat 10, k
        sums k
        .endrepeat
        jmp next
nmi:
irq:    rti

.segment "VECTORS"
        .word nmi, reset, irq

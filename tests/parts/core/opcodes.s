; Each documented opcode of a 6502 but BRK, in each way to name its byte, 256 times with registers,
; flags and bytes by chance, decimal sums too: for cpu.cpp and the arcade emulator. Of each
; entry of `entries` the first byte says how long the instructions are that run at SPOT, and the
; second one is 0 or one of
IMMEDIATE = $40         ; another byte comes behind the opcode each time
INDEXED   = $80         ; X and Y are 16, 20, 24 or 28
; Then the generator's strobe is sent, which is where both look at the vector RAM: 4002 counts
; entries, 4004 to 4007 sum up what was left in registers and flags and pushed, 4010 to 40BF is the
; zero page, and from 4400 on are bytes that are read and written. No NMI may come: it begins where
; the self-test switch is closed.

.include "asteroids.inc"

STROBE  = $3000
SPOT    = $02F8         ; the page ends amid it
RAM     = $4000
NUMBER  = RAM + 2
SUM     = RAM + 4
PAGE_0  = RAM + $10
BYTES   = RAM + $400    ; 768 of them may be written, and the page after them stays
FIXED   = RAM + $700
CELL    = $08           ; with 02, 06, 0A, 0E, and A1, A5, A9, AD
WRAPS   = $02 - 16
STAYS   = $A1 - 16
POINTER = $F3           ; with F7, FB, and FF, whose high byte is at 00

.segment "ZEROPAGE"

random: .res 2
entry:  .res 2
size:   .res 1
kind:   .res 1
times:  .res 1
in_a:   .res 1
in_x:   .res 1
in_y:   .res 1
in_p:   .res 1
left:   .res 6          ; A, X, Y, flags, S, and what was pushed last

.segment "CODE"

reset:  sei
        cld
        sta WATCHDOG
        bit IN_TEST
        bpl reset
        ldx #0
        txa
clear:  sta $00,x
        sta $0100,x
        sta $0200,x
        sta RAM,x
        sta RAM + $100,x
        sta RAM + $200,x
        sta RAM + $300,x
        inx
        bne clear
        lda #$B0                ; word 000 is a HALT
        sta RAM + 1
        inc random
fill:   jsr any
        sta BYTES,x
        jsr any
        sta BYTES + $100,x
        jsr any
        sta BYTES + $200,x
        txa
        sta FIXED,x
        inx
        bne fill
        ldx #3 * 4              ; pointers into the first two pages of BYTES
point:  jsr any
        sta POINTER,x
        and #1
        ora #>BYTES
        cpx #3 * 4
        bne within
        sta $00
        beq pointed             ; always
within: sta POINTER + 1,x
pointed:
        dex
        dex
        dex
        dex
        bpl point
        lda #<(SPOT + 4)        ; where jumps by a pointer lead
        sta FIXED + $10
        sta FIXED + $FF
        lda #>(SPOT + 4)
        sta FIXED + $11
        sta FIXED
        lda #<entries
        sta entry
        lda #>entries
        sta entry + 1

next:   ldy #0
        lda (entry),y
        beq ended
        sta size
        iny
        lda (entry),y
        sta kind
copy:   iny
        lda (entry),y
        sta SPOT - 2,y
        dec size
        bne copy
        lda #$4C                ; a jump to `done`
        sta SPOT - 1,y
        lda #<done
        sta SPOT,y
        lda #>done
        sta SPOT + 1,y
        iny
        tya
        clc
        adc entry
        sta entry
        bcc begin
        inc entry + 1
begin:  jmp run

ended:  sta WATCHDOG
        jmp ended

run:    sta WATCHDOG
        jsr any
        sta CELL
        jsr any
        sta BYTES + $80
        jsr any
        sta in_a
        tax
        jsr any
        sta BYTES,x
        jsr any
        sta in_p
        jsr any
        sta in_x
        jsr any
        sta in_y
        bit kind
        bvc named
        jsr any
        sta SPOT + 1
        bit kind
named:  bpl ready
        lda in_x
        and #12
        ora #16
        sta in_x
        lda in_y
        and #12
        ora #16
        sta in_y
ready:  ldx #$FF
        txs
        lda in_y                ; what may be pulled
        pha
        lda in_a
        eor in_x
        pha
        lda in_p
        pha
        ldx in_x
        ldy in_y
        lda in_a
        plp
        jmp SPOT

done:   php
        cld
        sta left
        stx left + 1
        sty left + 2
        pla
        sta left + 3
        tsx
        stx left + 4
        lda $0101,x
        sta left + 5
        ldx #$FF
        txs
        ldx #5
each:   asl SUM
        rol SUM + 1
        rol SUM + 2
        rol SUM + 3
        lda left,x
        adc SUM                 ; with what left it at the top
        sta SUM
        bcc summed
        inc SUM + 1
        bne summed
        inc SUM + 2
        bne summed
        inc SUM + 3
summed: dex
        bpl each
        dec times
        beq shown
        jmp run
shown:  inc NUMBER
        ldx #$AF
show:   lda $00,x
        sta PAGE_0,x
        dex
        cpx #$FF
        bne show
        sta STROBE
        jmp next

; A: the next of 65,535 numbers. Keeps X and Y.
any:    lda random + 1
        lsr a
        lda random
        ror a
        eor random + 1
        sta random + 1
        ror a
        eor random
        sta random
        eor random + 1
        sta random + 1
        rts

nmi:    rti

.macro try kind, instruction
        .local start, end
        .byte end - start, kind
start:  instruction
end:
.endmacro

.macro by_zero_page instruction, index
        try 0, {instruction CELL}
        try INDEXED, {instruction WRAPS & 255, index}
        try INDEXED, {instruction STAYS, index}
.endmacro

.macro by_word instruction, index
        try 0, {instruction BYTES + $80}
        try 0, {instruction BYTES + $80, index}
.endmacro

.macro in_all_modes instruction
        by_zero_page instruction, x
        by_word instruction, x
        try 0, {instruction BYTES + $80, y}
        try INDEXED, {instruction (POINTER - 16, x)}
        try 0, {instruction (POINTER + 4), y}
        try 0, {instruction ($FF), y}
.endmacro

.macro changes instruction
        by_zero_page instruction, x
        by_word instruction, x
.endmacro

.macro branches instruction     ; to the next page, and back from there
        .local start, over, end, begins, back, here, ends
        .byte end - start, 0
start:  instruction over
        .res 9, $E8             ; INX
over:   iny
end:    .byte ends - begins, 0
begins: jmp SPOT + here - begins
back:   inx
        jmp SPOT + ends - begins
here:   instruction back
        iny
ends:
.endmacro

entries:
        in_all_modes ora
        in_all_modes and
        in_all_modes eor
        in_all_modes adc
        in_all_modes sta
        in_all_modes lda
        in_all_modes cmp
        in_all_modes sbc
        changes asl
        changes rol
        changes lsr
        changes ror
        changes inc
        changes dec
        by_zero_page ldx, y
        by_zero_page ldy, x
        by_zero_page stx, y
        by_zero_page sty, x
        by_word ldx, y
        by_word ldy, x
        .repeat 2, k            ; in the zero page, and elsewhere
        try 0, {cpx CELL + k * (BYTES + $80 - CELL)}
        try 0, {cpy CELL + k * (BYTES + $80 - CELL)}
        try 0, {bit CELL + k * (BYTES + $80 - CELL)}
        .endrepeat
        try 0, {stx BYTES + $80}
        try 0, {sty BYTES + $80}
        try IMMEDIATE, {ora #0}
        try IMMEDIATE, {and #0}
        try IMMEDIATE, {eor #0}
        try IMMEDIATE, {adc #0}
        try IMMEDIATE, {lda #0}
        try IMMEDIATE, {cmp #0}
        try IMMEDIATE, {sbc #0}
        try IMMEDIATE, {ldx #0}
        try IMMEDIATE, {ldy #0}
        try IMMEDIATE, {cpx #0}
        try IMMEDIATE, {cpy #0}
        try 0, {asl a}
        try 0, {rol a}
        try 0, {lsr a}
        try 0, {ror a}
        try 0, clc
        try 0, cld
        try 0, cli
        try 0, clv
        try 0, sec
        try 0, sed
        try 0, sei
        try 0, nop
        try 0, dex
        try 0, dey
        try 0, inx
        try 0, iny
        try 0, tax
        try 0, tay
        try 0, txa
        try 0, tya
        try 0, tsx
        try 0, txs
        try 0, pha
        try 0, php
        try 0, pla
        try 0, plp
        branches bpl
        branches bmi
        branches bvc
        branches bvs
        branches bcc
        branches bcs
        branches bne
        branches beq
        .byte 4, 0
        jmp SPOT + 4
        inx
        .byte 4, 0
        jmp (FIXED + $10)
        inx
        .byte 4, 0, $6C         ; JMP (FIXED + $FF), whose high byte is at FIXED
        .word FIXED + $FF
        inx
        .byte 4, 0
        jsr SPOT + 4
        inx
        .byte 15, 0
        jsr SPOT + 7
        inx
        jmp SPOT + 15
        pla                     ; X and Y are where it returns to
        tay
        pla
        tax
        pha
        tya
        pha
        rts
        .byte 8, 0
        lda #>(SPOT + 7)
        pha
        lda #<(SPOT + 7)
        pha
        rts
        inx
        .byte 11, 0
        lda #>(SPOT + 11)
        pha
        lda #<(SPOT + 11)
        pha
        txa
        pha                     ; the flags
        rti
        inx
        iny
        .byte 0

.segment "VECTORS"
        .word nmi, reset, nmi

; Writes a random byte to each latch of sounds, one after the other, for whole.cpp: 85 rounds
; of some 7 milliseconds, which differ, over and over. It shows a line.

.include "asteroids.inc"

LATCHES = 9

.segment "ZEROPAGE"

at:     .res 2
random: .res 1

.segment "CODE"

reset:  ldx #<(shows - frame)
copy:   lda frame - 1,x
        sta $4000 - 1,x
        dex
        bne copy
        inx
        stx random
round:  ldx #LATCHES - 1
write:  lda low,x
        sta at
        lda high,x
        sta at + 1
        lda random
        asl a
        bcc even
        eor #$1D
even:   sta random
        ldy #0
        sta (at),y
wait:   dey
        bne wait
        sta WATCHDOG
        dex
        bpl write
        sta $3000               ; the generator's strobe
        bmi round               ; always
nmi:    rti

low:    .lobytes EXPLOSION, THUMP, SOUND_SAUCER, SOUND_SAUCER_FIRE, SOUND_SAUCER_LARGE
        .lobytes SOUND_THRUST, SOUND_FIRE, SOUND_SHIP, NOISE_RESET
high:   .hibytes EXPLOSION, THUMP, SOUND_SAUCER, SOUND_SAUCER_FIRE, SOUND_SAUCER_LARGE
        .hibytes SOUND_THRUST, SOUND_FIRE, SOUND_SHIP, NOISE_RESET
frame:  .byte $01, $E0          ; a jump to word 001
        .word $A190, $0200, $9064, $7464, $B000
shows:

.segment "VECTORS"

        .word nmi, reset, nmi

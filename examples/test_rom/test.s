; A ROM to put in first. It shows a test picture (border and grid, digits and letters, each
; intensity, scales from an eighth to four times), and of each switch whether it is closed. Buttons
; make sounds: left the saucer, right its fire, hyperspace an extra ship, thrust and fire their own,
; the diagnostic step a thump, and a struck door an explosion. A start button lights its lamp, and a
; coin switch holds its counter. It runs with and without the NMI, so also while the self-test
; switch is closed.
;
; With -D DELUXE=1 it is for Asteroids Deluxe: left, right, shields and fire are the four voices of
; its POKEY, the step has no sound, and the eight switches that the POKEY reads are shown, too.

.include "dvg.inc"
.ifdef DELUXE
.include "deluxe.inc"
IN_BUTTON_5 = IN_SHIELDS
POKEY_VOICES = POKEY + 8    ; 0 for four voices
POKEY_TONE = %10100000      ; a pure tone; bits 3 to 0 how loud
.else
.include "asteroids.inc"
IN_BUTTON_5 = IN_HYPERSPACE
.endif
.include "shapes.equates"
.include "letters.inc"

.segment "ZEROPAGE"
beats:   .res 1             ; NMIs
which:   .res 1
input:   .res 2
outputs: .res 1

.segment "CODE"

reset:  sei
        cld
        ldx #$FF
        txs
        inx
        txa
clear:  sta $00,x           ; clears dvg_phase, too
        inx
        bne clear
        .assert DVG_START = 0, error, "a cleared dvg_phase is no DVG_START"
        sta WATCHDOG
.ifdef DELUXE
        lda #3                  ; or the POKEY is in its reset
        sta POKEY_CONTROL
        lda #0
        sta POKEY_VOICES
        sta OUT_BANKS
.endif
        jsr dvg_reset
        jsr dvg_run

picture:
        sta WATCHDOG
        jsr sound
        jsr draw
        jsr dvg_run
        jmp picture

nmi:    inc beats
irq:    rti

.ifdef DELUXE

; A voice of the POKEY is loud as long as its button is held: how low it is, and how loud.
.macro sounds button, voice, low
        ldx #0
        bit button
        bpl :+
        ldx #low
        stx POKEY + 2 * voice
        ldx #POKEY_TONE | 8
:       stx POKEY + 2 * voice + 1
.endmacro

; An output is on while its switch is closed.
.macro drives switch, output
        lda switch
        sta output
.endmacro

sound:  sounds IN_LEFT, 0, 60
        sounds IN_RIGHT, 1, 80
        sounds IN_BUTTON_5, 2, 100
        sounds IN_FIRE, 3, 120
        ldx #0
        bit IN_SLAM
        bpl bang
        ldx #EXPLOSION_LOUD
bang:   stx EXPLOSION
        drives IN_THRUST, SOUND_THRUST
        drives IN_START_1, OUT_LAMP_1
        drives IN_START_2, OUT_LAMP_2
        drives IN_COIN_LEFT, OUT_COIN_LEFT
        drives IN_COIN_CENTER, OUT_COIN_CENTER
        drives IN_COIN_RIGHT, OUT_COIN_RIGHT
        rts

.else

; A sound is on as long as its button is held.
.macro sounds button, address
        lda button
        sta address
.endmacro

sound:  sounds IN_LEFT, SOUND_SAUCER
        sounds IN_RIGHT, SOUND_SAUCER_FIRE
        sounds IN_BUTTON_5, SOUND_SHIP
        sounds IN_THRUST, SOUND_THRUST
        sounds IN_FIRE, SOUND_FIRE
        ldx #0
        bit IN_STEP
        bpl thump
        ldx #THUMP_ON | 9
thump:  stx THUMP
        ldx #0
        bit IN_SLAM
        bpl bang
        ldx #EXPLOSION_LOUD
bang:   stx EXPLOSION

; An output is set while its switch is closed; a lamp is then lit, as its bit is turned around.
.macro drives switch
        lda switch
        asl a
        rol outputs
.endmacro
        lda #0
        sta outputs
        drives IN_COIN_RIGHT
        drives IN_COIN_CENTER
        drives IN_COIN_LEFT
        asl outputs         ; the banks stay
        drives IN_START_1
        drives IN_START_2
        lda outputs
        eor #OUT_LAMP_2 | OUT_LAMP_1
        sta OUTPUTS
        rts

.endif

draw:   jsr dvg_open
        say at_grid
        dvg_call grid
        say at_intensities
        dvg_call intensities
        say at_scales
        dvg_call scales
        say alphabet
        say digits
        say eighth
        say quarter
        say half
        say whole
        say twice
        say four_times
        lda #INPUTS - 1
        sta which
each:   ldx which
        lda lines_high,x
        ldy lines_low,x
        tax
        tya
        jsr print
        ldx which
        lda inputs_low,x
        sta input
        lda inputs_high,x
        sta input + 1
        ldy #0
        lda (input),y       ; Y is 0, so this reads once
        cpx #SWITCHES
        bcs switch
        asl a
        rol a
        and #1
        bpl put             ; always
switch: and #SWITCHES_MASK
put:    tay
        jsr put_letter
        dec which
        bpl each
        say nmi_text
        lda beats           ; counts up to 7 in a second
        lsr a
        lsr a
        lsr a
        lsr a
        lsr a
        tay
        jsr put_letter
.ifdef DELUXE
        say pokey
        lda POKEY_SWITCHES
        sta outputs
        lda #8
        sta which
bit_:   lda #0
        asl outputs
        rol a
        tay
        jsr put_letter
        dec which
        bne bit_
.endif
        jmp dvg_close

.segment "DATA"

.define BUTTONS IN_CLOCK, IN_LEFT, IN_RIGHT, IN_THRUST, IN_FIRE, IN_BUTTON_5, IN_START_1
.define OTHERS IN_START_2, IN_COIN_LEFT, IN_COIN_CENTER, IN_COIN_RIGHT, IN_SLAM, IN_STEP, IN_TEST
.ifdef DELUXE
.define PAIRS SWITCHES_BONUS, SWITCHES_DIFFICULTY, SWITCHES_SHIPS, SWITCHES_LANGUAGE
.else
.define PAIRS SWITCHES_COINAGE, SWITCHES_RIGHT, SWITCHES_SHIPS, SWITCHES_LANGUAGE
.endif
.define BUTTON_LINES clock, left, right, thrust, fire, hyperspace, start_1
.define OTHER_LINES start_2, coin_left, coin_center, coin_right, slam, step, self_test
.define PAIR_LINES pair_87, pair_65, pair_43, pair_21
SWITCHES = 14               ; from here on two switches of the board at a time
INPUTS   = 18

inputs_low:
        .lobytes BUTTONS, OTHERS, PAIRS
inputs_high:
        .hibytes BUTTONS, OTHERS, PAIRS
        .assert inputs_high - inputs_low = INPUTS, error, "there are other inputs"
lines_low:
        .lobytes BUTTON_LINES, OTHER_LINES, PAIR_LINES
lines_high:
        .hibytes BUTTON_LINES, OTHER_LINES, PAIR_LINES

at_grid:        line_at 0, 129, 0, ""
at_intensities: line_at 540, 540, 0, ""
at_scales:      line_at 0, 340, 0, ""
alphabet:       line_at 530, 680, 15, "ABCDEFGHIJKLMNOPQRSTUVWXYZ"
digits:         line_at 530, 640, 15, "0123456789"
eighth:         line_at 560, 740, 13, "A"
quarter:        line_at 580, 740, 14, "A"
half:           line_at 604, 740, 15, "A"
whole:          line_at 640, 740, 0, "A"
twice:          line_at 696, 740, 1, "A"
four_times:     line_at 790, 740, 2, "A"

clock:          line_at 40, 850, 15, "CLOCK "
left:           line_at 40, 822, 15, "LEFT "
right:          line_at 40, 794, 15, "RIGHT "
thrust:         line_at 40, 766, 15, "THRUST "
fire:           line_at 40, 738, 15, "FIRE "
.ifdef DELUXE
hyperspace:     line_at 40, 710, 15, "SHIELDS "
pokey:          line_at 290, 738, 15, "POKEY "
.else
hyperspace:     line_at 40, 710, 15, "HYPER "
.endif
start_1:        line_at 40, 682, 15, "START 1 "
start_2:        line_at 40, 654, 15, "START 2 "
coin_left:      line_at 40, 626, 15, "COIN L "
coin_center:    line_at 40, 598, 15, "COIN C "
coin_right:     line_at 40, 570, 15, "COIN R "
slam:           line_at 40, 542, 15, "SLAM "
step:           line_at 40, 486, 15, "STEP "
self_test:      line_at 40, 458, 15, "TEST "
pair_87:        line_at 290, 850, 15, "SW 87 "
pair_65:        line_at 290, 822, 15, "SW 65 "
pair_43:        line_at 290, 794, 15, "SW 43 "
pair_21:        line_at 290, 766, 15, "SW 21 "
nmi_text:       line_at 290, 710, 15, "NMI "

.segment "VECTORS"
        .word nmi, reset, irq

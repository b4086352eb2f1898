; A duel of two cannons over hills that are new in each round. Left and right turn the barrel of the
; cannon whose turn it is, thrust changes its powder, fire fires. A hit counts for who fired.

.include "dvg.inc"
.include "asteroids.inc"
.include "shapes.equates"
.include "letters.inc"

NEW_BEATS    = 8
SCORE_DIGITS = 2
.include "common.inc"
.include "parts/score.inc"
.include "parts/random.inc"
.include "parts/sine.inc"

HILLS   = 13                ; points of the hills, 64 units apart
LEFT_X  = 128
CANNON_0 = 1                ; the points where the cannons stand
CANNON_1 = 11
GRAVITY = 3
WAIT    = 30

.segment "ZEROPAGE"
turn:   .res 1              ; whose turn it is, 0 or 1
flying: .res 1              ; a shell flies
waits:  .res 1              ; pictures until the next round
shell_x: .res 2             ; in sixteenths
shell_y: .res 2
speed_x: .res 2
speed_y: .res 2
sum:    .res 2
point:  .res 1
times:  .res 1

.segment "BSS"
score:  .res SCORE_DIGITS   ; of the one at the left, and of the other
other_score: .res SCORE_DIGITS
heights: .res HILLS         ; in steps of two units
angle:  .res 2              ; of each cannon, 0 to 8 of a half turn
powder: .res 2              ; 4 to 15

.segment "CODE"

begin:  lda #$77
        sta chance
        ldx #SCORE_DIGITS - 1
        lda #0
none:   sta score,x
        sta other_score,x
        dex
        bpl none
        sta turn
; New hills, and both barrels at their middle.
round:  ldx #HILLS - 1
hill:   jsr random
        and #63
        clc
        adc #70
        sta heights,x
        dex
        bpl hill
        lda #2
        sta angle
        lda #6
        sta angle + 1
        lda #9
        sta powder
        sta powder + 1
        lda #0
        sta waits
        sta flying
        rts

think:  lda waits
        beq goes_on
        lda #0
        sta EXPLOSION
        dec waits
        bne stands
        jmp round
stands: rts
goes_on:
        lda flying
        beq aims
        jmp fly
aims:   ldx turn
        lda pressed
        and #HELD_LEFT
        beq no_left
        lda angle,x
        cmp #8
        bcs no_left
        inc angle,x
no_left:
        lda pressed
        and #HELD_RIGHT
        beq no_right
        lda angle,x
        beq no_right
        dec angle,x
no_right:
        lda pressed
        and #HELD_THRUST
        beq no_powder
        inc powder,x
        lda powder,x
        cmp #16
        bcc no_powder
        lda #4
        sta powder,x
no_powder:
        lda pressed
        and #HELD_FIRE
        beq no_fire
        jmp fire
no_fire:
        rts

; A number with a sign from a table of cosines, taken as many times as there is powder.
.macro powder_times low, high, what
        .local again
        set what, 0
        ldx turn
        lda powder,x
        sta times
again:  clc
        lda what
        adc low,y
        sta what
        lda what + 1
        adc high,y
        sta what + 1
        dec times
        bne again
.endmacro

fire:   inc flying
        lda #SOUND_ON
        sta SOUND_FIRE
        ldx turn
        ldy angle,x
        powder_times cosines_low, cosines_high, speed_x
        ldx turn
        lda angle,x
        jsr sine_of
        powder_times cosines_low, cosines_high, speed_y
        ldx turn
        ldy stands_at,x
        jsr place_of
        copy shell_x, dvg_x
        copy shell_y, dvg_y
        add_number shell_y, 16
        ldx #4
scaled: asl shell_x
        rol shell_x + 1
        asl shell_y
        rol shell_y + 1
        dex
        bne scaled
        rts

; Where the point Y of the hills is: dvg_x, dvg_y.
place_of:
        lda point_low,y
        sta dvg_x
        lda point_high,y
        sta dvg_x + 1
        lda heights,y
        asl a
        sta dvg_y
        lda #0
        rol a
        sta dvg_y + 1
        rts

; The shell goes on, until it is beyond the sides or in a hill.
fly:    add_number speed_y, -GRAVITY
        add shell_x, speed_x
        add shell_y, speed_y
        compare shell_x, LEFT_X * 16
        bcc lands
        compare shell_x, (LEFT_X + 64 * HILLS - 64) * 16
        bcs lands
        lda shell_y + 1     ; over 2,048 units it is still above all
        bmi flies
        sec
        lda shell_x + 1     ; 4 of these are a column of 64 units
        sbc #>(LEFT_X * 16)
        lsr a
        lsr a
        tay
        lda shell_y
        sta sum
        lda shell_y + 1
        ldx #5
halves: lsr a
        ror sum
        dex
        bne halves
        cmp #0
        bne flies
        lda sum
        cmp heights,y
        bcs flies
        ldx turn
        tya
        cmp aims_at,x
        beq hits
        clc
        adc #1
        cmp aims_at,x
        beq hits
lands:  lda #0
        sta flying
        sta SOUND_FIRE
        lda turn
        eor #1
        sta turn
flies:  rts
hits:   lda #EXPLOSION_LOUD
        sta EXPLOSION
        lda #0
        sta SOUND_FIRE
        lda turn
        bne other_hits
        ldy #SCORE_DIGITS - 1
        jsr add_one
        jmp won
other_hits:
        inc other_score + 1
        lda other_score + 1
        cmp #10
        bcc won
        lda #0
        sta other_score + 1
won:    lda #WAIT
        sta waits
        rts

; --- The picture ---

draw:   ldy #0
        jsr place_of
        jsr dvg_open
        jsr hills
        ldx #0
        jsr cannon_of
        ldx #1
        jsr cannon_of
        lda flying
        beq no_shell
        copy dvg_x, shell_x
        sixteenth dvg_x
        copy dvg_y, shell_y
        sixteenth dvg_y
        lda #0
        jsr dvg_labs
        dvg_call shell
no_shell:
        say left_text
        ldx #<score
        jsr print_number
        say right_text
        ldx #<other_score
        jsr print_number
        say powder_text
        ldx turn
        ldy powder,x
        jsr put_letter
        jmp dvg_close

; The hills as vectors from point to point, from dvg_x, dvg_y on.
hills:  lda #0
        sta point
        jsr dvg_labs
slope:  ldy point
        iny
        cpy #HILLS
        bcs drawn
        sty point
        set dvg_x, 64
        lda #0
        sta dvg_y + 1
        sec
        lda heights,y
        sbc heights - 1,y
        bcs up
        dec dvg_y + 1
up:     asl a
        sta dvg_y
        rol dvg_y + 1
        lda #$98
        jsr dvg_vector
        jmp slope
drawn:  rts

; The cannon X, and its barrel.
cannon_of:
        stx point
        ldy stands_at,x
        jsr place_of
        lda #0
        jsr dvg_labs
        dvg_call cannon
        ldx point
        ldy stands_at,x
        jsr place_of
        lda #0
        jsr dvg_labs
        ldx point
        ldy angle,x
        lda barrel_low,y
        sta dvg_x
        lda barrel_high,y
        sta dvg_x + 1
        lda angle,x
        jsr sine_of
        lda barrel_low,y
        sta dvg_y
        lda barrel_high,y
        sta dvg_y + 1
        lda #$9F
        jmp dvg_vector

.segment "DATA"

        cosine_table cosines_low, cosines_high, 16
        cosine_table barrel_low, barrel_high, 30
stands_at: .byte CANNON_0, CANNON_1
aims_at:   .byte CANNON_1, CANNON_0
.define POINTS 128, 192, 256, 320, 384, 448, 512, 576, 640, 704, 768, 832, 896
point_low:  .lobytes POINTS
point_high: .hibytes POINTS
left_text:   line_at 140, 840, 0, "LEFT "
right_text:  line_at 660, 840, 0, "RIGHT "
powder_text: line_at 440, 840, 0, "POWDER "

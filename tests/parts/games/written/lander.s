; A lander: thrust against gravity, fuel that ends, and a pad. Left and right push it aside. Where
; it comes down softly on the pad a landing is counted. A crash begins the count anew.

.include "dvg.inc"
.include "asteroids.inc"
.include "shapes.equates"
.include "letters.inc"

NEW_BEATS    = 8
SCORE_DIGITS = 3
.include "common.inc"
.include "parts/score.inc"

PAD_LEFT   = 492            ; the pad, and how high it is
PAD_RIGHT  = 568
PAD_Y      = 180
HILLS      = 260            ; beside the pad nothing below this is safe
LEFT_EDGE  = 116
RIGHT_EDGE = 900
GRAVITY    = 1              ; in sixteenths of a unit, as all that moves
THRUST     = 3
ASIDE      = 2
SOFT       = 24             ; the greatest speed downwards that lands
STEADY     = 12             ; and aside
WAIT       = 60             ; pictures that the outcome is shown

FLIES = 0
LANDED = 1
CRASHED = 2

.segment "ZEROPAGE"
ship_x: .res 2
ship_y: .res 2
speed_x: .res 2
speed_y: .res 2
burns:  .res 1              ; not 0: the engine burns in this picture
state:  .res 1
shown:  .res 1              ; pictures that are left of the outcome

.segment "BSS"
score:  .res SCORE_DIGITS   ; landings
fuel:   .res SCORE_DIGITS   ; the same digits as a score has

.segment "CODE"

begin:  ldx #SCORE_DIGITS - 1
        lda #0
none:   sta score,x
        dex
        bpl none
start:  set ship_x, 200 * 16
        set ship_y, 800 * 16
        set speed_x, 30
        set speed_y, 0
        lda #FLIES
        sta state
        sta fuel + 1
        sta fuel + 2
        lda #2
        sta fuel
        rts

think:  lda state
        bne outcome
        lda #0
        sta burns
        jsr steer
        subtract speed_y, gravity
        add ship_x, speed_x
        add ship_y, speed_y
        jsr edges
        jmp touch

; Shows what came of it, and begins anew.
outcome:
        lda #0
        sta SOUND_THRUST
        sta EXPLOSION
        dec shown
        bne shows
        lda state
        cmp #CRASHED
        bne again
        jsr begin
again:  jmp start
shows:  rts

steer:  lda held
        and #HELD_THRUST
        beq no_thrust
        jsr take_fuel
        bcs no_thrust
        add speed_y, thrust
        inc burns
no_thrust:
        lda held
        and #HELD_LEFT
        beq no_left
        jsr take_fuel
        bcs no_left
        subtract speed_x, aside
no_left:
        lda held
        and #HELD_RIGHT
        beq no_right
        jsr take_fuel
        bcs no_right
        add speed_x, aside
no_right:
        lda burns
        beq silent
        lda #SOUND_ON
silent: sta SOUND_THRUST
        rts

; Takes one of the fuel. C set: none is left.
take_fuel:
        ldx #SCORE_DIGITS - 1
less:   lda fuel,x
        bne has
        lda #9
        sta fuel,x
        dex
        bpl less
        ldx #SCORE_DIGITS - 1
        lda #0
empty:  sta fuel,x
        dex
        bpl empty
        sec
        rts
has:    dec fuel,x
        clc
        rts

; The ship stays between the edges.
edges:  compare ship_x, LEFT_EDGE * 16
        bcs right
        set ship_x, LEFT_EDGE * 16
        set speed_x, 0
right:  compare ship_x, RIGHT_EDGE * 16
        bcc inside
        set ship_x, (RIGHT_EDGE - 1) * 16
        set speed_x, 0
inside: rts

; Whether the ship touches the ground, and how.
touch:  compare ship_x, PAD_LEFT * 16
        bcc hills
        compare ship_x, PAD_RIGHT * 16
        bcs hills
        compare ship_y, PAD_Y * 16
        bcs flying
        jsr is_soft
        bcc lands
crashes:
        lda #EXPLOSION_LOUD
        sta EXPLOSION
        lda #CRASHED
        jmp ends
hills:  compare ship_y, HILLS * 16
        bcc crashes
flying: rts
lands:  set ship_y, PAD_Y * 16
        ldy #SCORE_DIGITS - 1
        jsr add_one
        lda #LANDED
ends:   sta state
        lda #WAIT
        sta shown
        rts

; C clear: slow enough to land.
is_soft:
        lda speed_y
        cmp #<-SOFT
        lda speed_y + 1
        sbc #>-SOFT
        eor #$80            ; a speed of -SOFT or more, as numbers with a sign
        bpl hard
        lda speed_x
        clc
        adc #<STEADY
        tax
        lda speed_x + 1
        adc #>STEADY
        bne hard
        cpx #2 * STEADY
        rts
hard:   sec
        rts

draw:   jsr dvg_open
        draw_at ground_x, ground_y, 0, ground
        copy dvg_x, ship_x
        sixteenth dvg_x
        copy dvg_y, ship_y
        sixteenth dvg_y
        lda #0
        jsr dvg_labs
        lda state
        cmp #CRASHED
        beq no_ship
        dvg_call ship
        lda burns
        beq no_ship
        copy dvg_x, ship_x
        sixteenth dvg_x
        copy dvg_y, ship_y
        sixteenth dvg_y
        lda #0
        jsr dvg_labs
        dvg_call flame
no_ship:
        say fuel_text
        ldx #<fuel
        jsr print_number
        say score_text
        ldx #<score
        jsr print_number
        lda state
        beq closes
        cmp #LANDED
        bne crashed
        say landed_text
        jmp dvg_close
crashed:
        say crashed_text
closes: jmp dvg_close

.segment "DATA"

ground_x: .word 112
ground_y: .word 140
gravity: .word GRAVITY
thrust: .word THRUST
aside:  .word ASIDE
fuel_text:    line_at 120, 840, 0, "FUEL "
score_text:   line_at 620, 840, 0, "LANDINGS "
landed_text:  line_at 380, 600, 1, "LANDED"
crashed_text: line_at 370, 600, 1, "CRASHED"

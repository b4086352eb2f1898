; The smallest game for the board of Asteroids, to begin with: a bat, a ball and a score of one
; digit. docs/GAME.md tells of its loop; examples/asteroid_game has coins, sounds and much more.
;
; Places are in units of the screen, of which the tube shows Y from 117 to 905.

.include "dvg.inc"
.include "asteroids.inc"
.include "shapes.equates"
.include "letters.inc"

SCORE_DIGITS = 1
.include "parts/near.inc"
.include "parts/score.inc"

LEFT_WALL  = 100
RIGHT_WALL = 900
TOP_WALL   = 852
BAT_Y      = 200
BAT_WIDTH  = 80
BAT_SPEED  = 10
BALL_WIDTH = 12

.segment "ZEROPAGE"
beats:  .res 1              ; NMIs since the last new picture, each 4 ms
bat_x:  .res 2              ; the lower left corner
ball_x: .res 2
ball_y: .res 2
dx:     .res 2              ; how far the ball moves in a picture
dy:     .res 2

.segment "BSS"              ; where no index can run over into the driver's bytes
score:  .res SCORE_DIGITS

.segment "CODE"

reset:  lda #DVG_START      ; first of all: after power-on dvg_phase is a byte of chance
        sta dvg_phase
        sei
        cld
        ldx #$FF
        txs
        sta WATCHDOG
        jsr dvg_reset
        jsr dvg_run         ; boots: waits until the generator is halted
        jsr serve

picture:
        jsr move_bat
        jsr move_ball
        jsr draw
        lda #8              ; a new picture each 8 NMIs, and 4 later once more
        jsr rest
        lda #0
        sta beats
        jsr dvg_run         ; waits for the generator, and shows the new picture
        lda #4
        jsr rest
        jsr dvg_redraw
        jsr dvg_run
        jmp picture

; Waits until A beats have come since the last new picture.
rest:   sta WATCHDOG        ; or the board resets the processor
        cmp beats
        beq rested
        bcs rest
rested: rts

; --- Numbers of two bytes, the low one first ---

.macro set what, number
        lda #<(number)
        sta what
        lda #>(number)
        sta what + 1
.endmacro

.macro add to, what
        clc
        lda to
        adc what
        sta to
        lda to + 1
        adc what + 1
        sta to + 1
.endmacro

.macro negate what
        sec
        lda #0
        sbc what
        sta what
        lda #0
        sbc what + 1
        sta what + 1
.endmacro

; Leaves C clear where what is below the number.
.macro compare what, number
        lda what
        cmp #<(number)
        lda what + 1
        sbc #>(number)
.endmacro

; --- The game ---

serve:  lda #0
        sta score
        set bat_x, 460
        set ball_x, 300
        set ball_y, 600
        set dx, 6
        set dy, 6
        rts

move_bat:
        bit IN_LEFT
        bpl no_left
        compare bat_x, LEFT_WALL + BAT_SPEED
        bcc no_left
        sec
        lda bat_x
        sbc #BAT_SPEED
        sta bat_x
        bcs no_left
        dec bat_x + 1
no_left:
        bit IN_RIGHT
        bpl no_right
        compare bat_x, RIGHT_WALL - BAT_WIDTH - BAT_SPEED
        bcs no_right
        clc
        lda bat_x
        adc #BAT_SPEED
        sta bat_x
        bcc no_right
        inc bat_x + 1
no_right:
        rts

move_ball:
        add ball_x, dx
        add ball_y, dy
        compare ball_x, LEFT_WALL
        bcc side
        compare ball_x, RIGHT_WALL - BALL_WIDTH
        bcc no_side
side:   negate dx
        add ball_x, dx
no_side:
        compare ball_y, TOP_WALL - BALL_WIDTH
        bcc no_top
        negate dy
        add ball_y, dy
no_top: bit dy + 1
        bpl flies           ; upwards
        compare ball_y, BAT_Y - 60
        bcc missed
        compare ball_y, BAT_Y + 16
        bcs flies
        compare ball_y, BAT_Y
        bcc flies
        unless_after ball_x, bat_x, BAT_WIDTH, flies
        negate dy
        lda score
        cmp #9
        bcs flies
        ldy #0
        jsr add_one
flies:  rts
missed: jmp serve

; --- The picture: for each object a LABS to its place, and a call of its shape ---

.macro draw_at where_x, where_y, shape
        lda where_x
        sta dvg_x
        lda where_x + 1
        sta dvg_x + 1
        lda where_y
        sta dvg_y
        lda where_y + 1
        sta dvg_y + 1
        lda #0              ; 16 times the scale
        jsr dvg_labs
        dvg_call shape
.endmacro

draw:   jsr dvg_open
        draw_at wall_x, wall_y, wall
        draw_at bat_x, bat_y, bat
        draw_at ball_x, ball_y, ball
        say title
        ldx #<score
        jsr print_number
        jmp dvg_close

nmi:    inc beats
irq:    rti

.segment "DATA"

wall_x: .word LEFT_WALL
wall_y: .word TOP_WALL - 600
bat_y:  .word BAT_Y
title:  line_at 420, 780, 0, "SCORE "

.segment "VECTORS"
        .word nmi, reset, irq

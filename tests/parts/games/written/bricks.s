; A wall of forty bricks, a bat and a ball. A brick that is hit goes, and counts as many points as
; its row says. Where the bat's end is hit the ball flies flatter. Three balls; then it begins anew.

.include "dvg.inc"
.include "asteroids.inc"
.include "shapes.equates"
.include "letters.inc"

NEW_BEATS    = 8
SCORE_DIGITS = 4
.include "common.inc"
.include "parts/near.inc"
.include "parts/score.inc"
.include "parts/random.inc"

COLUMNS = 8
ROWS    = 5
LEFT_WALL  = 132
RIGHT_WALL = 892
TOP_WALL   = 820
WALL_X  = 152               ; the corner of the bricks
WALL_Y  = 620
STEP_X  = 90
STEP_Y  = 28
BAT_Y   = 160
BAT_WIDTH = 96
BAT_SPEED = 14
BALL    = 10

.segment "ZEROPAGE"
bat_x:  .res 2
ball_x: .res 2
ball_y: .res 2
dx:     .res 2
dy:     .res 2
column: .res 1
row:    .res 1
left:   .res 1              ; bricks that are left
balls:  .res 1
bangs:  .res 1              ; how loud it still is
drawn:  .res 1              ; the brick that is drawn

.segment "BSS"
score:  .res SCORE_DIGITS
bricks: .res COLUMNS * ROWS ; not 0: it is there

.segment "CODE"

begin:  lda #$5A
        sta chance
        lda #3
        sta balls
        ldx #SCORE_DIGITS - 1
        lda #0
none:   sta score,x
        dex
        bpl none
        jsr build
; A ball from the middle, to one of the sides by chance.
serve:  set bat_x, 460
        set ball_x, 500
        set ball_y, 400
        set dy, -7
        set dx, 5
        jsr random
        bpl served
        negate dx
served: rts

; A whole wall.
build:  ldx #COLUMNS * ROWS - 1
        lda #1
each_brick:
        sta bricks,x
        dex
        bpl each_brick
        lda #COLUMNS * ROWS
        sta left
        rts

think:  jsr fade
        jsr move_bat
        add ball_x, dx
        add ball_y, dy
        jsr walls_
        jsr hit_bat
        jmp hit_brick

; The bang of a brick fades.
fade:   lda bangs
        beq quiet
        dec bangs
        asl a
        asl a
quiet:  sta EXPLOSION
        rts

move_bat:
        lda held
        and #HELD_LEFT
        beq no_left
        compare bat_x, LEFT_WALL + BAT_SPEED
        bcc no_left
        add_number bat_x, -BAT_SPEED
no_left:
        lda held
        and #HELD_RIGHT
        beq no_right
        compare bat_x, RIGHT_WALL - BAT_WIDTH - BAT_SPEED
        bcs no_right
        add_number bat_x, BAT_SPEED
no_right:
        rts

walls_: compare ball_x, LEFT_WALL
        bcc side
        compare ball_x, RIGHT_WALL - BALL
        bcc no_side
side:   negate dx
        add ball_x, dx
no_side:
        compare ball_y, TOP_WALL - BALL
        bcc no_top
        negate dy
        add ball_y, dy
no_top: rts

hit_bat:
        bit dy + 1
        bpl no_bat
        compare ball_y, BAT_Y - 40
        bcc lost
        compare ball_y, BAT_Y + 14
        bcs no_bat
        compare ball_y, BAT_Y
        bcc no_bat
        unless_after ball_x, bat_x, BAT_WIDTH, no_bat
        negate dy
        cpx #BAT_WIDTH / 4  ; X is how far from the bat's left end
        bcc to_left
        cpx #BAT_WIDTH * 3 / 4
        bcc no_bat
        set dx, 9
        rts
to_left:
        set dx, -9
no_bat: rts
lost:   dec balls
        bne more
        jmp begin
more:   jmp serve

; Which brick the ball is at: its row and column by taking away steps.
hit_brick:
        compare ball_y, WALL_Y
        bcc no_bat
        compare ball_y, WALL_Y + ROWS * STEP_Y
        bcs no_bat
        compare ball_x, WALL_X
        bcc no_bat
        compare ball_x, WALL_X + COLUMNS * STEP_X
        bcs no_brick
        sec
        lda ball_y
        sbc #<WALL_Y
        ldx #0
rows:   cmp #STEP_Y
        bcc in_row
        sbc #STEP_Y
        inx
        bne rows
in_row: stx row
        copy dvg_x, ball_x
        add_number dvg_x, -WALL_X
        ldx #0
columns:
        compare dvg_x, STEP_X
        bcc in_column
        add_number dvg_x, -STEP_X
        inx
        cpx #COLUMNS - 1
        bcc columns
in_column:
        stx column
        lda row
        asl a
        asl a
        asl a
        ora column
        tax
        lda bricks,x
        beq no_brick
        lda #0
        sta bricks,x
        negate dy
        lda #15
        sta bangs
        ldx row
points: ldy #SCORE_DIGITS - 2
        jsr add_one
        dex
        bpl points
        dec left
        bne no_brick
        jsr build
        jmp serve
no_brick:
        rts

draw:   jsr dvg_open
        draw_at walls_x, walls_y, 0, walls
        draw_at bat_x, bat_y, 0, bat
        draw_at ball_x, ball_y, 0, ball
        jsr draw_wall
        say score_text
        ldx #<score
        jsr print_number
        say balls_text
        ldy balls
        jsr put_letter
        jmp dvg_close

; Each brick that is there.
draw_wall:
        ldx #COLUMNS * ROWS - 1
        stx drawn
each:   ldx drawn
        lda bricks,x
        beq next
        txa
        and #COLUMNS - 1
        tay
        lda column_low,y
        sta dvg_x
        lda column_high,y
        sta dvg_x + 1
        txa
        lsr a
        lsr a
        lsr a
        tay
        lda row_low,y
        sta dvg_y
        lda row_high,y
        sta dvg_y + 1
        lda #0
        jsr dvg_labs
        dvg_call brick
next:   dec drawn
        bpl each
        rts

.segment "DATA"

walls_x: .word LEFT_WALL
walls_y: .word TOP_WALL - 640
bat_y:  .word BAT_Y
.define COLUMNS_AT 152, 242, 332, 422, 512, 602, 692, 782
column_low:  .lobytes COLUMNS_AT
column_high: .hibytes COLUMNS_AT
.define ROWS_AT 620, 648, 676, 704, 732
row_low:  .lobytes ROWS_AT
row_high: .hibytes ROWS_AT
score_text: line_at 140, 850, 0, "SCORE "
balls_text: line_at 700, 850, 0, "BALLS "

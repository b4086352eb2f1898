; Two riders on a grid of 32 by 24 cells, each with a trail behind it that nobody may cross. One is
; turned by left and right, the other one looks ahead. Who rides into a trail or the edge has lost.

.include "dvg.inc"
.include "asteroids.inc"
.include "shapes.equates"
.include "letters.inc"

NEW_BEATS    = 16
SCORE_DIGITS = 2
.include "common.inc"
.include "parts/score.inc"
.include "parts/random.inc"

WIDE    = 32
HIGH    = 24
CELL    = 24                ; units
FIELD_X = 128
FIELD_Y = 220
MOST    = 48                ; corners of a trail
WAIT    = 40

.segment "ZEROPAGE"
rider:  .res 1              ; 0 the player, 1 the other one
at_x:   .res 1              ; the cell that is looked at
at_y:   .res 1
mask:   .res 1
waits:  .res 1              ; pictures until the next round; 0: they ride
point:  .res 1              ; the corner that is drawn
ends:   .res 1

.segment "BSS"
score:  .res SCORE_DIGITS   ; rounds that were won
lost:   .res SCORE_DIGITS
cells:  .res WIDE / 8 * HIGH ; a bit of each cell
x_of:   .res 2              ; of both riders: the cell,
y_of:   .res 2
heading: .res 2             ; where to, 0 right, 1 up, 2 left, 3 down,
corners: .res 2             ; and how many corners the trail has
corner_x: .res 2 * MOST
corner_y: .res 2 * MOST

.segment "CODE"

begin:  lda #$11
        sta chance
        ldx #SCORE_DIGITS - 1
        lda #0
none:   sta score,x
        sta lost,x
        dex
        bpl none
; A new round.
round:  ldx #WIDE / 8 * HIGH - 1
        lda #0
        sta waits
clear:  sta cells,x
        dex
        bpl clear
        ldx #1
each:   lda start_x,x
        sta x_of,x
        lda #HIGH / 2
        sta y_of,x
        lda start_heading,x
        sta heading,x
        lda #0
        sta corners,x
        stx rider
        jsr corner
        jsr mark
        ldx rider
        dex
        bpl each
        rts

; Keeps the rider's place as a corner; one too many is left out.
corner: ldx rider
        lda corners,x
        cmp #MOST - 1
        bcs full
        inc corners,x
        cpx #0
        beq first
        adc #MOST
first:  tay
        lda x_of,x
        sta corner_x,y
        lda y_of,x
        sta corner_y,y
full:   rts

; Where the bit of the cell at_x, at_y stands: Y and mask.
cell:   lda at_x
        and #7
        tay
        lda bits,y
        sta mask
        lda at_x
        lsr a
        lsr a
        lsr a
        sta point
        lda at_y
        asl a
        asl a
        ora point
        tay
        rts

; Marks the rider's cell.
mark:   ldx rider
        lda x_of,x
        sta at_x
        lda y_of,x
        sta at_y
        jsr cell
        lda cells,y
        ora mask
        sta cells,y
        rts

; C set: the cell in the heading Y of the rider is taken, or beyond the edge.
ahead:  ldx rider
        clc
        lda x_of,x
        adc step_x,y
        sta at_x
        clc
        lda y_of,x
        adc step_y,y
        sta at_y
        lda at_x
        cmp #WIDE
        bcs taken
        lda at_y
        cmp #HIGH
        bcs taken
        jsr cell
        lda cells,y
        and mask
        beq free
taken:  sec
        rts
free:   clc
        rts

think:  lda waits
        beq rides
        dec waits
        bne stands
        jmp round
stands: rts
rides:  lda #0
        sta rider
        jsr turn_player
        jsr ride
        bcs player_lost
        lda #1
        sta rider
        jsr turn_other
        jsr ride
        bcs other_lost
        rts
player_lost:
        inc lost + 1
        lda lost + 1
        cmp #10
        bcc over
        lda #0
        sta lost + 1
over:   lda #WAIT
        sta waits
        rts
other_lost:
        ldy #SCORE_DIGITS - 1
        jsr add_one
        jmp over

turn_player:
        lda pressed
        and #HELD_LEFT
        beq no_left
        lda #1
        jmp turn
no_left:
        lda pressed
        and #HELD_RIGHT
        beq no_turn
        lda #3
; Turns the rider by A quarters.
turn:   ldx rider
        clc
        adc heading,x
        and #3
        sta heading,x
        jmp corner
no_turn:
        rts

; The other one turns where its way is taken, and now and then by chance.
turn_other:
        jsr random
        cmp #12
        bcc turns
        ldx rider
        ldy heading,x
        jsr ahead
        bcc no_turn
turns:  ldx rider
        lda heading,x
        clc
        adc #1
        and #3
        tay
        jsr ahead
        lda #1
        bcc turn
        lda #3
        jmp turn

; Goes on by a cell. C set: it couldn't.
ride:   ldx rider
        ldy heading,x
        jsr ahead
        bcs stopped
        ldx rider
        lda at_x
        sta x_of,x
        lda at_y
        sta y_of,x
        jsr mark
        clc
stopped:
        rts

; --- The picture ---

; what = 24 * A, where A is a number with a sign
.macro times_24 what
        .local plus
        sta what
        ldy #0
        cmp #$80
        bcc plus
        dey
plus:   sty what + 1
        asl what
        rol what + 1
        asl what
        rol what + 1
        asl what
        rol what + 1
        lda what
        ldy what + 1
        asl what
        rol what + 1
        clc
        adc what
        sta what
        tya
        adc what + 1
        sta what + 1
.endmacro

draw:   jsr dvg_open
        draw_at field_x, field_y, 0, field
        lda #0
        sta rider
        jsr trail
        lda #1
        sta rider
        jsr trail
        say won_text
        ldx #<score
        jsr print_number
        say lost_text
        ldx #<lost
        jsr print_number
        jmp dvg_close

; The trail of a rider: a LABS to its first corner, vectors to each other one, and to its head.
trail:  lda #0
        sta point
        ldx rider
        beq of_first
        lda #MOST
        sta point
of_first:
        lda corners,x
        clc
        adc point
        sta ends
        ldx point
        lda corner_x,x
        times_24 dvg_x
        add_number dvg_x, FIELD_X + CELL / 2
        lda corner_y,x
        times_24 dvg_y
        add_number dvg_y, FIELD_Y + CELL / 2
        lda #0
        jsr dvg_labs
next:   ldx point
        inx
        cpx ends
        bcs to_head
        sec
        lda corner_x,x
        sbc corner_x - 1,x
        times_24 dvg_x
        sec
        lda corner_y,x
        sbc corner_y - 1,x
        times_24 dvg_y
        lda #$9C
        jsr dvg_vector
        inc point
        jmp next
to_head:
        dex
        ldy rider
        sec
        lda x_of,y
        sbc corner_x,x
        times_24 dvg_x
        ldx point
        ldy rider
        sec
        lda y_of,y
        sbc corner_y,x
        times_24 dvg_y
        lda #$9C
        jsr dvg_vector
        dvg_call head
        rts

.segment "DATA"

field_x: .word FIELD_X
field_y: .word FIELD_Y
start_x: .byte 6, WIDE - 7
start_heading: .byte 0, 2
step_x: .byte 1, 0, <-1, 0
step_y: .byte 0, 1, 0, <-1
bits:   .byte 1, 2, 4, 8, 16, 32, 64, 128
won_text:  line_at 140, 840, 0, "WON "
lost_text: line_at 700, 840, 0, "LOST "

; Planes drop bombs on five towns, and a gun shoots at both: left and right turn it, fire fires. One
; player, coins and free play. A title of three tables takes turns with a screen of text.
;
; Positions and moves are in 1/64 of a unit, moves are a picture's.

.include "dvg.inc"
.include "asteroids.inc"
.include "shapes.equates"
.include "letters.inc"

SCORE_DIGITS = 5

PLANES = 0                  ; the objects: planes, bombs, shells, blasts
BOMBS  = 2
SHELLS = 8
BLASTS = 12
COUNT  = 16
TOWNS  = 5

NONE      = 0               ; what an object is
IS_PLANE  = 1
IS_BOMB   = 2
IS_SHELL  = 3
IS_BLAST  = 4

GROUND  = 160
GUN_X   = 512
SKY     = 224               ; of y_high, above which a shell is gone

START  = %00010000          ; the buttons of `held` and `pressed`
FIRE   = %00001000
LEFT   = %00000010
RIGHT  = %00000001

.segment "ZEROPAGE"

beats:     .res 1           ; NMIs since the last new picture
coin_bits: .res 1           ; the coin switches at the last NMIs, the latest in bit 0
coins:     .res 1           ; coins that weren't counted yet
credits:   .res 1
counting:  .res 1           ; pictures that the coin counter has still to be on
clock:     .res 1           ; new pictures
held:      .res 1
pressed:   .res 1
playing:   .res 1
over:      .res 1           ; pictures for which GAME OVER has still to be shown
direction: .res 1           ; of the gun, 0 to 8
aiming:    .res 1           ; pictures until it turns further
wave:      .res 1
left:      .res 1           ; bombs of this wave that have still to fall
pause:     .res 1           ; pictures until the next wave
boom:      .res 1
fired:     .res 1
which:     .res 1
other:     .res 1
shape_at:  .res 1
scratch:   .res 2

.segment "BSS"
score:     .res SCORE_DIGITS
best:      .res SCORE_DIGITS
wave_digits: .res SCORE_DIGITS
kind:      .res COUNT
life:      .res COUNT       ; pictures that it has still to fly, or how far a blast is
x_low:     .res COUNT
x_high:    .res COUNT
y_low:     .res COUNT
y_high:    .res COUNT
dx_low:    .res COUNT
dx_high:   .res COUNT
dy_low:    .res COUNT
dy_high:   .res COUNT
town_is:   .res TOWNS       ; 1: it stands

.include "parts/near.inc"
.include "parts/score.inc"
.include "parts/random.inc"
.include "parts/sine.inc"

.segment "CODE"

reset:  lda #DVG_START
        sta dvg_phase
        sei
        cld
        ldx #$FF
        txs
        sta WATCHDOG
        lda #0              ; nothing is taken from what RAM holds
        sta beats
        sta coin_bits
        sta coins
        sta credits
        sta counting
        sta clock
        sta held
        sta pressed
        sta playing
        sta over
        sta boom
        sta fired
        sta pause
        lda #$5A
        sta chance
        ldx #SCORE_DIGITS - 1
        lda #0
no_best:
        sta best,x
        sta score,x
        dex
        bpl no_best
        jsr clear
        jsr dvg_reset
        jsr dvg_run

picture:
        inc clock
        jsr buttons
        jsr count_coins
        jsr lamps
        jsr sounds
        lda playing
        bne plays
        lda over
        bne ended
        jsr may_start
        lda playing
        bne plays
        lda clock           ; half of the time a title of tables, else the best score
        and #$40
        bne told
        jmp title
told:   jsr tell
        jmp shows
ended:  dec over
        jsr draw
        jmp shows
plays:  jsr aim
        jsr shoot
        jsr drop
        jsr move
        jsr hits
        jsr ends
        jsr draw
shows:  lda #8
        jsr rest
        lda #0
        sta beats
        jsr dvg_run
        lda #4
        jsr rest
        jsr dvg_redraw
        jsr dvg_run
        jmp picture

; The title: one of three tables.
title:  lda clock
        lsr a
        lsr a
        and #3
        tay
        cpy #tables_high - tables_low
        bcs third
        ldx tables_high,y
        lda tables_low,y
        jsr dvg_offer
        jmp shows
third:  lda #<title_1
        ldx #>title_1
        jsr dvg_offer
        jmp shows

; Waits until A beats have come since the last new picture.
rest:   sta WATCHDOG
        bit IN_TEST         ; no NMI comes while it is closed
        bmi rested
        cmp beats
        beq rested
        bcs rest
rested: rts

; --- Buttons, coins, lamps, sounds ---

.macro button switch, bits
        .local open
        bit switch
        bpl open
        ora #bits
open:
.endmacro

buttons:
        lda #0
        button IN_START_1, START
        button IN_START_2, START
        button IN_FIRE, FIRE
        button IN_LEFT, LEFT
        button IN_RIGHT, RIGHT
        tax
        eor held
        stx held
        and held
        sta pressed
        rts

count_coins:
        lda coins
        beq no_coins
        dec coins
        lda SWITCHES_COINAGE
        and #SWITCHES_MASK
        cmp #1
        bne one_credit
        jsr one_more        ; a coin for two games
one_credit:
        jsr one_more
        lda #4
        sta counting
no_coins:
        rts

one_more:
        lda credits
        cmp #9
        bcs many
        inc credits
many:   rts

lamps:  lda credits
        bne lit
        lda SWITCHES_COINAGE
        and #SWITCHES_MASK
        beq lit
        lda #OUT_LAMP_1 | OUT_LAMP_2
        jmp counter
lit:    lda #OUT_LAMP_2
counter:
        ldx counting
        beq not_counting
        dec counting
        ora #OUT_COIN_LEFT
not_counting:
        sta OUTPUTS
        rts

sounds: lda #0
        ldx fired
        beq no_fire
        dec fired
        lda #SOUND_ON
no_fire:
        sta SOUND_FIRE
        lda boom
        beq no_boom
        lda clock
        and #1
        bne no_boom
        dec boom
no_boom:
        lda boom
        asl a
        asl a
        ora #$40
        sta EXPLOSION
        lda #0
        ldx kind + PLANES
        beq no_plane
        lda #SOUND_ON
no_plane:
        sta SOUND_SAUCER
        sta SOUND_SAUCER_LARGE
        lda playing
        beq no_thump
        lda clock
        and #16
        beq no_thump
        lda left
        lsr a
        and #15
        ora #THUMP_ON
no_thump:
        and #THUMP_ON | 15
        sta THUMP
        rts

; --- A game ---

may_start:
        lda pressed
        and #START
        beq no_start
        lda SWITCHES_COINAGE
        and #SWITCHES_MASK
        beq free_play
        lda credits
        beq no_start
        dec credits
free_play:
        lda #1
        sta playing
        lda #0
        sta wave
        sta pause
        ldx #SCORE_DIGITS - 1
no_score:
        sta score,x
        sta wave_digits,x
        dex
        bpl no_score
        ldx #TOWNS - 1
        lda #1
build:  sta town_is,x
        dex
        bpl build
        lda #4
        sta direction
        lda #0
        sta aiming
        jsr clear
        jsr next_wave
no_start:
        rts

clear:  ldx #COUNT - 1
        lda #NONE
empty:  sta kind,x
        dex
        bpl empty
        rts

next_wave:
        inc wave
        ldy #SCORE_DIGITS - 1
        lda wave_digits,y
        clc
        adc #1
        cmp #10
        bcs ninth
        sta wave_digits,y
ninth:  lda wave
        asl a
        clc
        adc #6
        cmp #30
        bcc few
        lda #30
few:     sta left
        lda #40
        sta pause
        rts

aim:    lda aiming
        beq may_turn
        dec aiming
        rts
may_turn:
        lda held
        and #LEFT
        beq not_left
        lda direction
        cmp #8
        bcs not_left
        inc direction
        lda #2
        sta aiming
not_left:
        lda held
        and #RIGHT
        beq not_right
        lda direction
        beq not_right
        dec direction
        lda #2
        sta aiming
not_right:
        rts

; A free object among those from X down to A: X. C is set where there is none.
find:   sta scratch
search: lda kind,x
        beq found
        cpx scratch
        beq none_free
        dex
        jmp search
none_free:
        sec
        rts
found:  clc
        rts

shoot:  lda pressed
        and #FIRE
        beq no_shell
        ldx #BLASTS - 1
        lda #SHELLS
        jsr find
        bcs no_shell
        lda #IS_SHELL
        sta kind,x
        lda #60
        sta life,x
        lda #5
        sta fired
        lda #0
        sta x_low,x
        sta y_low,x
        lda #GUN_X / 4
        sta x_high,x
        lda #GROUND / 4
        sta y_high,x
        ldy direction
        lda cosine_low,y
        sta dx_low,x
        lda cosine_high,y
        sta dx_high,x
        tya
        jsr sine_of
        lda cosine_low,y
        sta dy_low,x
        lda cosine_high,y
        sta dy_high,x
no_shell:
        rts

; A plane comes, or a plane drops a bomb.
drop:   lda pause
        beq no_pause
        dec pause
        rts
no_pause:
        jsr random
        cmp #12
        bcs no_new_plane
        ldx #BOMBS - 1
        lda #PLANES
        jsr find
        bcs no_new_plane
        jsr new_plane
no_new_plane:
        lda left
        beq no_bomb
        jsr random
        and #PLANES + 1
        tay
        lda kind,y
        beq no_bomb
        jsr random
        and #31
        cmp wave
        bcs no_bomb
        sty other
        ldx #SHELLS - 1
        lda #BOMBS
        jsr find
        bcs no_bomb
        ldy other
        jsr new_bomb
no_bomb:
        rts

new_plane:
        lda #IS_PLANE
        sta kind,x
        lda #255
        sta life,x
        lda #0
        sta x_low,x
        sta y_low,x
        sta dy_low,x
        sta dy_high,x
        jsr random
        and #31
        clc
        adc #170
        sta y_high,x
        jsr random
        bmi from_right
        lda #8
        sta x_high,x
        lda #160
        sta dx_low,x
        lda #0
        sta dx_high,x
        rts
from_right:
        lda #247
        sta x_high,x
        lda #<-160
        sta dx_low,x
        lda #>-160
        sta dx_high,x
        rts

; The bomb X falls from the plane Y.
new_bomb:
        dec left
        lda #IS_BOMB
        sta kind,x
        lda x_high,y
        sta x_high,x
        lda y_high,y
        sta y_high,x
        lda x_low,y
        sta x_low,x
        lda y_low,y
        sta y_low,x
        jsr random
        and #63
        sec
        sbc #32
        sta dx_low,x
        lda #0
        bcs to_right
        lda #$FF
to_right:
        sta dx_high,x
        lda wave
        and #15
        asl a
        asl a
        clc
        adc #120
        eor #$FF            ; down by two to three units
        sta dy_low,x
        lda #$FF
        sta dy_high,x
        rts

move:   ldx #COUNT - 1
each:   lda kind,x
        beq still
        cmp #IS_BLAST
        beq bursts
        clc
        lda x_low,x
        adc dx_low,x
        sta x_low,x
        lda x_high,x
        adc dx_high,x
        sta x_high,x
        clc
        lda y_low,x
        adc dy_low,x
        sta y_low,x
        lda y_high,x
        adc dy_high,x
        sta y_high,x
        lda kind,x
        cmp #IS_BOMB
        beq falls
        dec life,x
        beq gone
        lda x_high,x
        cmp #4
        bcc gone
        cmp #252
        bcs gone
        lda y_high,x
        cmp #SKY
        bcs gone
        jmp still
falls:  lda y_high,x
        cmp #GROUND / 4 + 4
        bcs still
        jsr strikes
        jmp still
bursts: dec life,x
        bne still
gone:   lda #NONE
        sta kind,x
still:  dex
        bpl each
        rts

; The bomb X comes to the ground: the town there is gone.
strikes:
        ldy #TOWNS - 1
town_near:
        lda town_x,y
        sec
        sbc #2
        cmp x_high,x
        bcs no_town
        clc
        adc #20
        cmp x_high,x
        bcc no_town
        lda #0
        sta town_is,y
no_town:
        dey
        bpl town_near
; The object X bursts.
burst:  lda #IS_BLAST
        sta kind,x
        lda #16
        sta life,x
        lda #15
        sta boom
        rts

; Each shell, and each blast, hits what is near.
hits:   ldx #COUNT - 1
hitter: lda kind,x
        cmp #IS_SHELL
        beq may_hit
        cmp #IS_BLAST
        bne hits_none
may_hit:
        ldy #SHELLS - 1
target: lda kind,y
        beq missed
        cmp #IS_BLAST
        beq missed
        unless_near x_high, #8, missed
        unless_near y_high, #8, missed
        jsr hit
missed: dey
        bpl target
hits_none:
        dex
        cpx #SHELLS
        bcs hitter
        rts

; X hits Y: both burst, and the score has more.
hit:    stx which
        sty other
        lda kind,y
        pha
        jsr burst
        ldx other
        jsr burst
        pla
        ldy #SCORE_DIGITS - 2
        cmp #IS_PLANE
        bne ten
        dey
ten:    jsr add_one
        ldx which
        ldy other
        rts

; A wave ends where nothing falls any more; a game where no town stands.
ends:   ldx #TOWNS - 1
standing:
        lda town_is,x
        bne one_stands
        dex
        bpl standing
        lda #0
        sta playing
        lda #90
        sta over
        jmp is_best
one_stands:
        lda left
        bne goes_on
        ldx #SHELLS - 1
falling:
        lda kind,x
        cmp #IS_BOMB
        beq goes_on
        dex
        bpl falling
        jsr next_wave
        jsr bonus
goes_on:
        rts

; A hundred for each town that stands.
bonus:  ldx #TOWNS - 1
each_town:
        lda town_is,x
        beq no_bonus
        ldy #SCORE_DIGITS - 3
        jsr add_one
no_bonus:
        dex
        bpl each_town
        rts

; Keeps the best score.
is_best:
        ldx #0
compare:
        lda score,x
        cmp best,x
        bcc is_less
        bne is_more
        inx
        cpx #SCORE_DIGITS
        bne compare
is_less:
        rts
is_more:
        ldx #SCORE_DIGITS - 1
keep:   lda score,x
        sta best,x
        dex
        bpl keep
        rts

; --- The picture ---

.macro to place_x, place_y
        lda #<(place_x)
        sta dvg_x
        lda #>(place_x)
        sta dvg_x + 1
        lda #<(place_y)
        sta dvg_y
        lda #>(place_y)
        sta dvg_y + 1
        lda #0
        jsr dvg_labs
.endmacro

.macro place low, high, into
        lda #0
        sta into + 1
        lda low,x
        sta scratch
        lda high,x
        asl scratch
        rol a
        rol into + 1
        asl scratch
        rol a
        rol into + 1
        sta into
.endmacro

draw:   jsr dvg_open
        to 60, GROUND
        dvg_call ground
        jsr draw_towns
        jsr draw_gun
        jsr draw_objects
        jsr draw_score
        lda over
        beq not_over
        say game_over
not_over:
        jmp dvg_close

draw_towns:
        ldx #TOWNS - 1
a_town: stx which
        lda #0
        sta dvg_x + 1
        sta dvg_y + 1
        lda town_x,x
        asl a
        rol dvg_x + 1
        asl a
        rol dvg_x + 1
        sta dvg_x
        lda #GROUND
        sta dvg_y
        lda #0
        jsr dvg_labs
        ldx which
        lda town_is,x
        beq is_ruin
        dvg_call town
        jmp drew_town
is_ruin:
        dvg_call ruin
drew_town:
        ldx which
        dex
        bpl a_town
        rts

draw_gun:
        to GUN_X, GROUND + 8
        lda direction
        clc
        adc #GUN_SHAPES
        tay
        jmp put_shape

draw_objects:
        ldx #COUNT - 1
object: stx which
        lda kind,x
        beq not_there
        place x_low, x_high, dvg_x
        place y_low, y_high, dvg_y
        lda #0
        jsr dvg_labs
        ldx which
        jsr shape_of
        jsr put_shape
not_there:
        ldx which
        dex
        bpl object
        rts

; Y: the number of the shape of the object X.
shape_of:
        lda kind,x
        cmp #IS_BLAST
        beq blast_of
        cmp #IS_PLANE
        bne one_shape
        lda dx_high,x
        bpl one_shape_of_plane
        ldy #PLANE_L
        rts
one_shape_of_plane:
        ldy #PLANE_R
        rts
one_shape:
        clc
        adc #BOMB_SHAPE - IS_BOMB
        tay
        rts
blast_of:
        lda life,x
        lsr a
        lsr a
        eor #3
        and #3
        clc
        adc #BLAST_SHAPES
        tay
        rts

; Puts a call of shape Y of the list.
put_shape:
        cpy #LISTED
        bcs no_shape
        lda shapes_high,y
        ora #$C0
        tax
        lda shapes_low,y
        jmp dvg_put
no_shape:
        rts

draw_score:
        to 100, 860
        ldx #<score
        jsr print_number
        say wave_line
        ldx #<wave_digits
        jmp print_number

; Between games: the best score, and how to begin.
tell:   jsr dvg_open
        say title_line
        say best_line
        ldx #<best
        jsr print_number
        lda SWITCHES_COINAGE
        and #SWITCHES_MASK
        beq is_free
        lda credits
        bne is_free
        say coin_line
        jmp told_all
is_free:
        lda clock
        and #16
        beq told_all
        say start_line
told_all:
        say line_1
        say line_2
        say line_3
        jmp dvg_close

; --- The NMI: counts, and looks at the coins ---

nmi:    pha
        inc beats
        lda IN_COIN_LEFT
        ora IN_COIN_CENTER
        ora IN_COIN_RIGHT
        bit IN_SLAM
        bpl no_slam
        lda #0
no_slam:
        asl a
        rol coin_bits
        lda coin_bits
        and #%00011111
        cmp #%00000111      ; closed for three NMIs, after two in which it wasn't
        bne no_coin
        inc coins
no_coin:
        pla
irq:    rti

; --- Tables ---

.segment "DATA"

        cosine_table cosine_low, cosine_high, 900
town_x: .byte 30, 72, 150, 180, 215

.define OBJECTS_ plane_r, plane_l, bomb, shell
.define BLASTS_ blast_0, blast_1, blast_2, blast_3
.define GUNS_A gun_0, gun_1, gun_2, gun_3, gun_4
.define GUNS_B gun_5, gun_6, gun_7, gun_8
PLANE_R = 0
PLANE_L = 1
BOMB_SHAPE = 2
BLAST_SHAPES = 4
GUN_SHAPES = 8
LISTED = 17
shapes_low:
        .lobytes OBJECTS_, BLASTS_, GUNS_A, GUNS_B
shapes_high:
        .hibytes OBJECTS_, BLASTS_, GUNS_A, GUNS_B
        .assert shapes_high - shapes_low = LISTED, error, "the list has other shapes"

game_over:  line_at 380, 520, 0, "GAME OVER"
wave_line:  line_at 640, 860, 0, "WAVE "
title_line: line_at 380, 700, 1, "FLAK"
best_line:  line_at 330, 600, 0, "BEST "
coin_line:  line_at 330, 500, 0, "INSERT COIN"
start_line: line_at 330, 500, 0, "PRESS START"
line_1:     line_at 130, 380, 0, "LEFT AND RIGHT TURN"
line_2:     line_at 130, 330, 0, "FIRE SHOOTS A SHELL"
line_3:     line_at 130, 280, 0, "SAVE THE TOWNS"

.include "tables.inc"

.segment "VECTORS"
        .word nmi, reset, irq

; A tank in a maze, against four others: three mazes, coins, lives, a flag to fetch, time that runs
; out, sounds and lamps. Left and right turn, thrust drives, fire fires.
;
; Places are bytes: steps of four units from the corner of the field; a cell is 14 of them wide.

.include "dvg.inc"
.include "asteroids.inc"
.include "shapes.equates"
.include "letters.inc"

NEW_BEATS    = 8
SCORE_DIGITS = 4
OWN_NMI      = 1
.include "common.inc"
.include "parts/near.inc"
.include "parts/score.inc"
.include "parts/random.inc"

WIDE    = 14                ; cells
HIGH    = 10
CELL    = 14                ; steps
FIELD_X = 120
FIELD_Y = 180
TANKS   = 5                 ; 0 is the player's
LEVELS  = 3
REACH   = 6                 ; how near a shot hits
FETCH   = 9                 ; how near a flag is fetched
LIVES   = 3
READY_TIME = 60             ; pictures
DYING_TIME = 40
OVER_TIME  = 120
SECOND  = 30

ATTRACT = 0                 ; what `state` is
READY   = 1
PLAYING = 2
DYING   = 3
OVER    = 4

.segment "ZEROPAGE"
state:  .res 1
time:   .res 1              ; pictures that are left of a state
tank:   .res 1              ; the tank that is looked at
lives:  .res 1
level:  .res 1
left:   .res 1              ; tanks that are left against the player
credits: .res 1
coins:  .res 1              ; that the NMI counted
coin_in: .res 1             ; the last NMIs in which a coin fell by, a bit each
flag_x: .res 1
flag_y: .res 1
has_flag: .res 1            ; a flag is there
bang:   .res 1              ; how loud the explosion still is
fires:  .res 1              ; pictures that the sound of a shot lasts
bonus:  .res 1              ; pictures that the sound of an extra tank lasts
seconds: .res 1             ; pictures of this second
x_now:  .res 1
y_now:  .res 1
turned: .res 1
tries:  .res 1
cell_x: .res 1
cell_y: .res 1
wide:   .res 1
high:   .res 1
wall:   .res 2              ; where the list of walls goes on
column: .res 1
sum:    .res 1

.segment "BSS"
score:  .res SCORE_DIGITS
best:   .res SCORE_DIGITS
clock_digits: .res SCORE_DIGITS     ; the time that is left
extra:  .res 1              ; the digit of thousands at which an extra tank came
tank_on: .res TANKS         ; 0: gone
tank_x: .res TANKS          ; the middle, in steps
tank_y: .res TANKS
heading: .res TANKS
drives: .res TANKS          ; steps that are left to the next cell
shot_on: .res TANKS
shot_x: .res TANKS
shot_y: .res TANKS
shot_to: .res TANKS
burst_on: .res TANKS        ; pictures that a burst is shown
burst_x: .res TANKS
burst_y: .res TANKS
maze:   .res WIDE * HIGH    ; not 0: a wall

.segment "CODE"

begin:  lda #$3C
        sta chance
        lda #0
        sta state
        sta credits
        sta coins
        sta coin_in
        sta bang
        sta fires
        sta bonus
        sta left
        ldx #SCORE_DIGITS - 1
no_best:
        sta best,x
        sta score,x
        dex
        bpl no_best
        sta level
        jmp new_level

; --- The mazes ---

; Clears the maze, sets the walls of this level, and the tanks at their places.
new_level:
        ldx #WIDE * HIGH
        lda #0
no_wall:
        sta maze - 1,x
        dex
        bne no_wall
        ldx level
        lda level_low,x
        sta wall
        lda level_high,x
        sta wall + 1
next_wall:
        ldy #0
        lda (wall),y
        bmi walls_set
        sta cell_x
        iny
        lda (wall),y
        sta cell_y
        iny
        lda (wall),y
        sta wide
        iny
        lda (wall),y
        sta high
        jsr set_wall
        clc
        lda wall
        adc #4
        sta wall
        bcc next_wall
        inc wall + 1
        jmp next_wall
walls_set:
        ldx #TANKS - 1
each_tank:
        jsr set_tank
        dex
        bpl each_tank
        lda #TANKS - 1
        sta left
        jsr new_flag
        lda #0
        sta clock_digits
        sta clock_digits + 2
        sta clock_digits + 3
        sta seconds
        lda #1
        sta clock_digits + 1
        rts

; Marks a rectangle of cells.
set_wall:
        lda cell_x
        sta column
        ldx wide
        stx sum
each_column:
        jsr cell_index
        lda #1
        sta maze,x
        inc column
        dec sum
        bne each_column
        inc cell_y
        dec high
        bne set_wall
        rts

; X: the number of the cell column, cell_y.
cell_index:
        ldx cell_y
        lda row_starts,x
        clc
        adc column
        tax
        rts

set_tank:
        lda #1
        sta tank_on,x
        lda start_x,x
        sta tank_x,x
        lda start_y,x
        sta tank_y,x
        lda start_heading,x
        sta heading,x
        lda #0
        sta drives,x
        sta shot_on,x
        sta burst_on,x
        rts

; A flag in a cell by chance that has no wall.
new_flag:
        lda #20
        sta tries
try_flag:
        jsr random
        and #7
        clc
        adc #3
        sta column
        jsr random
        and #7
        sta cell_y
        jsr cell_index
        lda maze,x
        beq sets_flag
        dec tries
        bne try_flag
        lda #0
        sta has_flag
        rts
sets_flag:
        ldx column
        lda middles,x
        sta flag_x
        ldx cell_y
        lda middles,x
        sta flag_y
        lda #1
        sta has_flag
        rts

; --- The states ---

think:  jsr take_coins
        jsr sounds
        jsr lamps
        lda state
        cmp #PLAYING
        beq plays
        cmp #READY
        beq ready
        cmp #DYING
        beq dying
        cmp #OVER
        beq over
        jsr move_all        ; the tanks drive about in attract, too
        lda pressed
        and #HELD_START
        beq waits
        lda credits
        beq waits
        dec credits
new_game:
        lda #LIVES
        sta lives
        lda #0
        sta level
        sta extra
        ldx #SCORE_DIGITS - 1
no_score:
        sta score,x
        dex
        bpl no_score
        jsr new_level
get_ready:
        lda #READY
        sta state
        lda #READY_TIME
        sta time
waits:  rts
ready:  dec time
        bne waits
        lda #PLAYING
        sta state
        rts
dying:  jsr move_all
        dec time
        bne waits
        dec lives
        beq game_over
        ldx #0
        jsr set_tank
        jmp get_ready
game_over:
        jsr keep_best
        lda #OVER
        sta state
        lda #OVER_TIME
        sta time
        rts
over:   dec time
        bne waits
        lda #ATTRACT
        sta state
        jmp new_level
plays:  jsr drive_player
        jsr move_all
        jsr fetch
        jsr count_time
        lda left
        bne waits
; All tanks are gone: the next maze.
        ldy #SCORE_DIGITS - 3
        jsr add_one
        inc level
        lda level
        cmp #LEVELS
        bcc same_round
        lda #0
        sta level
same_round:
        jsr new_level
        jmp get_ready

; The best score, where this one is above it.
keep_best:
        ldx #0
compares:
        lda score,x
        cmp best,x
        bcc not_best
        bne is_best
        inx
        cpx #SCORE_DIGITS
        bcc compares
        rts
is_best:
        ldx #SCORE_DIGITS - 1
keeps:  lda score,x
        sta best,x
        dex
        bpl keeps
not_best:
        rts

; A second less; at 0 the player's tank is lost.
count_time:
        inc seconds
        lda seconds
        cmp #SECOND
        bcc in_time
        lda #0
        sta seconds
        ldx #SCORE_DIGITS - 1
less:   lda clock_digits,x
        bne has
        lda #9
        sta clock_digits,x
        dex
        bne less
        lda #0
        sta clock_digits + 1
        sta clock_digits + 2
        sta clock_digits + 3
        ldx #0
        jmp lose
has:    dec clock_digits,x
in_time:
        rts

; Coins that the NMI counted become credits; 0 of the switches is free play.
take_coins:
        lda SWITCHES_COINAGE
        and #SWITCHES_MASK
        bne not_free
        lda #1
        sta credits
not_free:
        lda coins
        beq no_coin
        dec coins
        lda credits
        cmp #9
        bcs no_coin
        inc credits
no_coin:
        rts

; --- Sounds and lamps ---

sounds: lda bang
        beq no_bang
        dec bang
        asl a
        asl a
no_bang:
        sta EXPLOSION
        lda fires
        beq no_fires
        dec fires
        lda #SOUND_ON
no_fires:
        sta SOUND_FIRE
        lda bonus
        beq no_bonus
        dec bonus
        lda #SOUND_ON
no_bonus:
        sta SOUND_SHIP
        lda state
        cmp #PLAYING
        bne no_thump
        lda clock
        and #%00011000
        bne no_thump
        lda #THUMP_ON | 4
        bne thumps
no_thump:
        lda #0
thumps: sta THUMP
        lda drives
        beq no_engine
        lda state
        cmp #PLAYING
        bne no_engine
        lda #SOUND_ON
        sta SOUND_THRUST
        rts
no_engine:
        lda #0
        sta SOUND_THRUST
        rts

; The lamp of start 1 blinks while there is a credit and no game.
lamps:  lda #OUT_LAMP_1 | OUT_LAMP_2
        ldx state
        bne dark
        ldx credits
        beq dark
        ldx clock
        cpx #128
        bcs dark
        and #<~OUT_LAMP_1
dark:   sta OUTPUTS
        rts

; --- Tanks ---

; The player turns amid a cell alone, and drives while thrust is held.
drive_player:
        lda tank_on
        beq parked
        lda pressed
        and #HELD_FIRE
        beq no_shot
        ldx #0
        jsr fire
no_shot:
        lda drives
        bne parked
        lda pressed
        and #HELD_LEFT
        beq not_left
        inc heading
not_left:
        lda pressed
        and #HELD_RIGHT
        beq not_right
        dec heading
not_right:
        lda heading
        and #3
        sta heading
        lda held
        and #HELD_THRUST
        beq parked
        ldx #0
        jmp start_drive
parked: rts

; The tank X drives to the next cell, if that is free. C set: it isn't.
start_drive:
        ldy heading,x
        jsr is_free
        bcs blocked
        lda #CELL
        sta drives,x
blocked:
        rts

; C set: the cell in the heading Y of the tank X is a wall or beyond the field. It keeps X and Y.
is_free:
        stx tank
        lda tank_x,x
        clc
        adc far_x,y
        cmp #WIDE * CELL
        bcs is_wall
        sta x_now
        lda tank_y,x
        clc
        adc far_y,y
        cmp #HIGH * CELL
        bcs is_wall
        sta y_now
        jsr at_wall
        ldx tank
        rts
is_wall:
        ldx tank
        sec
        rts

; C set: the place x_now, y_now is in a wall. It keeps Y.
at_wall:
        ldx x_now
        lda cell_of,x
        sta column
        ldx y_now
        lda cell_of,x
        sta cell_y
        jsr cell_index
        lda maze,x
        cmp #1
        rts

; All tanks, shots and bursts.
move_all:
        ldx #TANKS - 1
each_move:
        stx tank
        lda tank_on,x
        beq no_tank
        cpx #0
        beq on_its_way
        jsr steer
on_its_way:
        ldx tank
        lda drives,x
        beq no_tank
        dec drives,x
        ldy heading,x
        clc
        lda tank_x,x
        adc step_x,y
        sta tank_x,x
        clc
        lda tank_y,x
        adc step_y,y
        sta tank_y,x
no_tank:
        ldx tank
        lda shot_on,x
        beq no_shot_of
        jsr move_shot
no_shot_of:
        ldx tank
        lda burst_on,x
        beq no_burst
        dec burst_on,x
no_burst:
        dex
        bpl each_move
        rts

; A tank that nobody drives: in the middle of a cell it goes on, or turns by chance; it fires where
; the player is in its row or column.
steer:  lda drives,x
        bne steered
        jsr random
        cmp #160
        bcc straight
        and #3
        sta heading,x
straight:
        lda #4
        sta tries
        jsr random
        sta turned
again:  jsr start_drive
        ldx tank
        lda drives,x
        bne looks
        lda turned
        lsr a
        lda heading,x
        bcs to_right
        adc #1
        jmp turns
to_right:
        sbc #1
turns:  and #3
        sta heading,x
        dec tries
        bne again
looks:  lda state
        cmp #PLAYING
        bne steered
        lda tank_x,x
        cmp tank_x
        beq aims
        lda tank_y,x
        cmp tank_y
        beq aims
steered:
        rts
aims:   jsr random
        cmp #100
        bcs steered
        ldx tank
        jmp fire

; The tank X fires, if its last shot is gone.
fire:   lda shot_on,x
        bne fired
        inc shot_on,x
        lda tank_x,x
        sta shot_x,x
        lda tank_y,x
        sta shot_y,x
        lda heading,x
        sta shot_to,x
        lda #6
        sta fires
fired:  rts

; The shot of the tank X goes three steps, and ends in a wall, beyond the field, or in a tank.
move_shot:
        ldy shot_to,x
        clc
        lda shot_x,x
        adc fast_x,y
        cmp #WIDE * CELL
        bcs shot_ends
        sta shot_x,x
        sta x_now
        clc
        lda shot_y,x
        adc fast_y,y
        cmp #HIGH * CELL
        bcs shot_ends
        sta shot_y,x
        sta y_now
        jsr at_wall
        bcs shot_ends
        ldx tank
        ldy #TANKS - 1
each_hit:
        jsr hits
        dey
        bpl each_hit
        rts
shot_ends:
        ldx tank
        lda #0
        sta shot_on,x
        rts

; Whether the shot of the tank X hits the tank Y. It keeps Y.
hits:   lda shot_on,x
        beq missed
        lda tank_on,y
        beq missed
        cpx #0
        beq of_player
        cpy #0
        bne missed          ; they don't hit each other
        lda state
        cmp #PLAYING
        bne missed
of_player:
        sty sum
        cpx sum
        beq missed          ; nor itself
        sec
        lda shot_x,x
        sbc tank_x,y
        bcs at_right
        eor #$FF
        adc #1
at_right:
        cmp #REACH
        bcs missed
        sec
        lda shot_y,x
        sbc tank_y,y
        bcs above
        eor #$FF
        adc #1
above:  cmp #REACH
        bcs missed
        lda #0
        sta shot_on,x
        tya
        tax
        jsr lose
        ldy sum
        beq hit
        jsr points
        dec left
hit:    ldx tank
        ldy sum
missed: rts

; The tank X is lost.
lose:   lda #0
        sta tank_on,x
        sta drives,x
        lda tank_x,x
        sta burst_x,x
        lda tank_y,x
        sta burst_y,x
        lda #15
        sta burst_on,x
        sta bang
        cpx #0
        bne lost
        lda #DYING
        sta state
        lda #DYING_TIME
        sta time
lost:   rts

; Twenty points, and an extra tank at each thousand.
points: ldy #SCORE_DIGITS - 2
        jsr add_one
        ldy #SCORE_DIGITS - 2
        jsr add_one
        lda score
        cmp extra
        beq no_extra
        sta extra
        inc lives
        lda #30
        sta bonus
no_extra:
        rts

; The player's tank at the flag: fifty points, and another flag.
fetch:  lda has_flag
        beq no_fetch
        lda tank_on
        beq no_fetch
        sec
        lda tank_x
        sbc flag_x
        bcs flag_left
        eor #$FF
        adc #1
flag_left:
        cmp #FETCH
        bcs no_fetch
        sec
        lda tank_y
        sbc flag_y
        bcs flag_below
        eor #$FF
        adc #1
flag_below:
        cmp #FETCH
        bcs no_fetch
        lda #5
        sta tries
fifty:  ldy #SCORE_DIGITS - 2
        jsr add_one
        dec tries
        bne fifty
        lda #12
        sta bonus
        jmp new_flag
no_fetch:
        rts

; A coin counts at the third NMI in a row in which one falls by, after one in which none did.
nmi:    pha
        inc beats
        lda IN_SLAM
        bmi no_fall
        lda IN_COIN_LEFT
        ora IN_COIN_CENTER
        ora IN_COIN_RIGHT
        asl a
        rol coin_in
        lda coin_in
        and #%00001111
        cmp #%00000111
        bne no_fall
        inc coins
no_fall:
        pla
        rti

.include "tanks_draw.inc"

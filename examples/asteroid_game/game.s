; A small whole game for the board of Asteroids: a ship with inertia among rocks that break. One
; player; coins and free play, by the board's switches. Each picture is built anew in the free half,
; shown, and drawn once more by a redraw: 61 pictures a second, of which each second one is new.
;
; Positions and moves are in 1/64 of a unit, moves are a picture's. X goes around at 1,024 units,
; and Y between 128 and 896, which is what the tube shows.

.include "dvg.inc"
.include "asteroids.inc"
.include "shapes.equates"
.include "letters.inc"

SCORE_DIGITS = 5

SHIP   = 0                  ; the objects: the ship, rocks and shots
ROCKS  = 1
SHOTS  = 13
COUNT  = 17

BOTTOM = 128 / 4            ; of y_high, which counts four units
TOP    = 896 / 4

HALF_BEATS = 4              ; NMIs from a new picture to its redraw, and from there to the next one
NEW_BEATS  = 8

START  = %00100000          ; the buttons of `held` and `pressed`
JUMP   = %00010000
FIRE   = %00001000
THRUST = %00000100
RIGHT  = %00000010
LEFT   = %00000001

.segment "ZEROPAGE"

beats:     .res 1           ; NMIs since the last new picture
coin_bits: .res 1           ; the coin switches at the last eight NMIs, the latest in bit 0
coins:     .res 1           ; coins that weren't counted yet
halves:    .res 1           ; credits, twice
counting:  .res 1           ; pictures that the coin counter has still to be on
clock:     .res 1           ; new pictures
held:      .res 1           ; buttons that are down
pressed:   .res 1           ; those that weren't down a picture ago
playing:   .res 1           ; 0: attract; 1: a game
over:      .res 1           ; pictures for which GAME OVER has still to be shown
pause:     .res 1           ; pictures until the next ship
shield:    .res 1           ; pictures for which no rock hits the ship
lives:     .res 1           ; ships that are left, without the one that flies
wave:      .res 1           ; rocks of a wave
direction: .res 1           ; of the ship, 0 to 15, counterclockwise
thrusting: .res 1
boom:      .res 1           ; how loud the explosion is, 0 to 15
pitch:     .res 1           ; of the explosion, as EXPLOSION has it
fired:     .res 1           ; pictures for which the sound of a shot is still on
which:     .res 1
rock:      .res 1
reach:     .res 1
scratch:   .res 2

.segment "BSS"              ; where no index can run over into the driver's bytes
score:     .res SCORE_DIGITS ; the last digit is always 0
high:      .res SCORE_DIGITS
x_low:     .res COUNT
x_high:    .res COUNT
y_low:     .res COUNT
y_high:    .res COUNT
dx_low:    .res COUNT
dx_high:   .res COUNT
dy_low:    .res COUNT
dy_high:   .res COUNT
life:      .res COUNT       ; 0: it isn't there. Of a shot: the pictures that it has still to fly
size:      .res SHOTS       ; of a rock: 0 small, 1, 2 large

.include "parts/near.inc"
.include "parts/random.inc"
.include "parts/score.inc"
.include "parts/sine.inc"

.segment "CODE"

reset:  sei
        cld
        ldx #$FF
        txs
        inx
        txa
clear:  sta $00,x           ; clears dvg_phase, too
        sta $200,x
        inx
        bne clear
        .assert DVG_START = 0, error, "a cleared dvg_phase is no DVG_START"
        sta WATCHDOG
        jsr dvg_reset
        jsr dvg_run         ; boots
        bit IN_TEST
        bmi self_test
        lda #$5A
        sta chance
        lda #4
        sta wave
        jsr new_wave        ; rocks to look at

picture:
        jsr think
        jsr sound
        jsr draw
        lda #NEW_BEATS
        jsr rest
        lda #0
        sta beats
        jsr dvg_run         ; waits for the redraw's end, and shows the new picture
        lda #HALF_BEATS
        jsr rest
        jsr dvg_redraw
        jsr dvg_run
        jmp picture

; Waits until A beats have come since the last new picture. While the self-test switch is closed
; none comes: then all begins anew, by the self-test.
rest:   sta WATCHDOG
        bit IN_TEST
        bmi restart
        cmp beats
        beq rested
        bcs rest
rested: rts
restart:
        jmp reset

; Letters, digits, and which buttons are held, as bits of `held`, until the switch is open again.
self_test:
        sta WATCHDOG
        jsr read_buttons
        jsr dvg_open
        say test_text
        say test_letters
        say test_buttons
        lda #6
        sta which
        lda held
        asl a
        asl a
        sta scratch
bit_:   lda #0
        asl scratch
        rol a
        tay
        jsr put_letter
        dec which
        bne bit_
        jsr dvg_close
        jsr dvg_run
        ldx #20             ; 17 milliseconds
        ldy #0
late:   dey
        bne late
        dex
        bne late
        bit IN_TEST
        bmi self_test
        jmp reset

; A coin counts at the third of three NMIs with its switch closed, after two with it open.
nmi:    pha
        inc beats
        lda IN_COIN_LEFT
        ora IN_COIN_CENTER
        ora IN_COIN_RIGHT
        and #$80
        asl a
        rol coin_bits
        lda IN_SLAM
        bmi no_coin
        lda coin_bits
        and #%00011111
        cmp #%00000111
        bne no_coin
        inc coins
no_coin:
        pla
irq:    rti

; --- What a picture brings ---

think:  inc clock
        jsr random
        jsr read_buttons
        jsr take_coins
        jsr move
        lda playing
        beq attract
        jmp play

attract:
        lda over
        beq ready
        dec over
ready:  lda pressed
        and #START
        beq thought
        jsr may_start
        bcc thought
        jmp new_game
thought:
        rts

play:   lda life + SHIP
        beq dead
        jsr steer
        jsr hyperspace
        jsr shoot
        jsr hit_ship
dead:   jsr hit_rocks
        lda life + SHIP
        bne alive
        dec pause
        bne alive
        lda lives
        bne another_ship
        jmp game_over
another_ship:
        dec lives
        jsr new_ship
alive:  ldx #SHOTS - 1
search: lda life,x
        bne thought         ; a rock is left
        dex
        cpx #ROCKS
        bcs search
        lda wave
        cmp #7
        bcs most
        inc wave
most:   jmp new_wave

.macro take address
        lda address
        asl a
        rol held
.endmacro

read_buttons:
        lda held
        pha
        take IN_START_1
        take IN_HYPERSPACE
        take IN_FIRE
        take IN_THRUST
        take IN_RIGHT
        take IN_LEFT
        lda held
        and #%00111111
        sta held
        pla
        eor #$FF
        and held
        sta pressed
        rts

; The halves of a credit that a coin gives, by the switches.
take_coins:
        lda coins
        beq no_coins
        dec coins
        lda #4
        sta counting
        lda SWITCHES_COINAGE
        and #SWITCHES_MASK
        tay
        lda halves
        clc
        adc coin_halves,y
        bcs no_coins        ; more than anyone needs
        sta halves
no_coins:
        rts

; C set: a game may start.
may_start:
        lda SWITCHES_COINAGE
        and #SWITCHES_MASK
        beq free
        lda halves
        cmp #2
        rts
free:   sec
        rts

new_game:
        lda SWITCHES_COINAGE
        and #SWITCHES_MASK
        beq paid
        dec halves
        dec halves
paid:   ldx #3
        lda #0
zeros:  sta score,x
        dex
        bpl zeros
        sta over
        lda SWITCHES_SHIPS
        and #1
        eor #3              ; three ships, or two beside the one that flies
        sta lives
        lda #1
        sta playing
        lda #4
        sta wave
        jsr new_wave
        ; falls through

new_ship:
        lda #512 / 4
        sta x_high + SHIP
        sta y_high + SHIP
        lda #0
        sta x_low + SHIP
        sta y_low + SHIP
        sta dx_low + SHIP
        sta dx_high + SHIP
        sta dy_low + SHIP
        sta dy_high + SHIP
        lda #4
        sta direction
        lda #60
        sta shield
        lda #1
        sta life + SHIP
        rts

game_over:
        sta playing         ; A is 0
        lda #150
        sta over
        ldx #0
compare:
        lda score,x
        cmp high,x
        bcc ended           ; less than the high score
        bne higher
        inx
        cpx #4
        bne compare
ended:  rts
higher: ldx #3
keep:   lda score,x
        sta high,x
        dex
        bpl keep
        rts

; Large rocks at the lower or the upper edge; all others go. -D WORST=1 is for measuring: it always
; takes all rocks there are, and no rock hits the ship.
new_wave:
        ldx #COUNT - 1
        lda #0
gone:   sta life,x
        dex
        cpx #ROCKS
        bcs gone
.ifdef WORST
        ldx #SHOTS - 1
.else
        ldx wave
.endif
another:
        lda #1
        sta life,x
        lda #2
        sta size,x
        jsr random
        sta x_high,x
        and #15
        adc #BOTTOM - 8
        sta y_high,x
        jsr throw
        dex
        bne another
        rts

; A move by chance for the rock X, twice as fast for one that isn't large.
throw:  jsr random
        jsr widen
        sta dx_low,x
        lda scratch
        sta dx_high,x
        jsr random
        jsr widen
        sta dy_low,x
        lda scratch
        sta dy_high,x
        rts

; A, with its sign in `scratch`: 32 to 127 or the negative of them, or twice as much.
widen:  ldy #0
        cmp #$80
        bcc signed
        dey
        and #$DF            ; -33 at most
        bcs sign            ; always
signed: ora #$20
sign:   sty scratch
        ldy size,x
        cpy #2
        bcs slow
        asl a
        rol scratch
slow:   rts

move:   ldx #COUNT - 1
next:   lda life,x
        beq still
        clc
        lda x_low,x
        adc dx_low,x
        sta x_low,x
        lda x_high,x
        adc dx_high,x
        sta x_high,x
        clc
        lda y_low,x
        adc dy_low,x
        sta y_low,x
        lda y_high,x
        adc dy_high,x
        cmp #BOTTOM
        bcs above
        adc #TOP - BOTTOM
above:  cmp #TOP
        bcc below
        sbc #TOP - BOTTOM
below:  sta y_high,x
        cpx #SHOTS
        bcc still
        dec life,x
still:  dex
        bpl next
        rts

; --- The ship ---

; Takes a 32nd from a move.
.macro drag low, high
        lda low
        sta scratch
        lda high
        ldx #5
:       cmp #$80
        ror a
        ror scratch
        dex
        bne :-
        sta scratch + 1
        sec
        lda low
        sbc scratch
        sta low
        lda high
        sbc scratch + 1
        sta high
.endmacro

; Adds entry Y of a table to a move.
.macro push low, high, table_low, table_high
        clc
        lda low
        adc table_low,y
        sta low
        lda high
        adc table_high,y
        sta high
.endmacro

steer:  lda clock
        lsr a
        bcs turned
        lda held
        lsr a               ; LEFT
        bcc no_left
        inc direction
no_left:
        lda held
        and #RIGHT
        beq masked
        dec direction
masked: lda direction
        and #15
        sta direction
turned: drag dx_low + SHIP, dx_high + SHIP
        drag dy_low + SHIP, dy_high + SHIP
        lda shield
        beq bare
        dec shield
bare:   lda held
        and #THRUST
        sta thrusting
        beq coasts
        ldy direction
        push dx_low + SHIP, dx_high + SHIP, pushes_low, pushes_high
        lda direction
        jsr sine_of
        push dy_low + SHIP, dy_high + SHIP, pushes_low, pushes_high
coasts: rts

hyperspace:
        lda pressed
        and #JUMP
        beq coasts
        jsr random
        sta x_high + SHIP
        jsr random
        lsr a
        adc #BOTTOM
        sta y_high + SHIP
        lda #0
        sta dx_low + SHIP
        sta dx_high + SHIP
        sta dy_low + SHIP
        sta dy_high + SHIP
        lda #15
        sta shield
        rts

shoot:  lda pressed
        and #FIRE
        beq coasts
        ldx #COUNT - 1
look:   lda life,x
        beq found
        dex
        cpx #SHOTS
        bcs look
        rts

found:  lda #32
        sta life,x
        lda #4
        sta fired
        lda x_low + SHIP
        sta x_low,x
        lda x_high + SHIP
        sta x_high,x
        lda y_low + SHIP
        sta y_low,x
        lda y_high + SHIP
        sta y_high,x
        ldy direction
        clc
        lda cosines_low,y
        adc dx_low + SHIP
        sta dx_low,x
        lda cosines_high,y
        adc dx_high + SHIP
        sta dx_high,x
        lda direction
        jsr sine_of
        clc
        lda cosines_low,y
        adc dy_low + SHIP
        sta dy_low,x
        lda cosines_high,y
        adc dy_high + SHIP
        sta dy_high,x
        rts

; --- Collisions ---

hit_rocks:
        ldx #COUNT - 1
shot_:  lda life,x
        beq flown
        lda #1
        jsr find_rock
        bcc flown
        lda #0
        sta life,x
        jsr shatter
flown:  dex
        cpx #SHOTS
        bcs shot_
        rts

hit_ship:
.ifdef WORST
        lda #1
        sta shield
.endif
        lda shield
        bne missed
        ldx #SHIP
        lda #3
        jsr find_rock
        bcc missed
        lda #0
        sta life + SHIP
        sta thrusting
        lda #90
        sta pause
        jmp shatter
missed: rts

; C set: the rock Y is near the object X; A is how far the object itself reaches, in four units.
find_rock:
        sta scratch
        ldy #SHOTS - 1
rock_:  lda life,y
        beq far
        lda size,y
        stx which
        tax
        lda radii,x
        ldx which
        clc
        adc scratch
        sta reach
        unless_near x_high, reach, far
        unless_near y_high, reach, far
        sec
        rts
far:    dey
        cpy #ROCKS
        bcs rock_
        clc
        rts

; The rock Y breaks: into two of the next size, if it isn't small and there is room. Keeps X.
shatter:
        txa
        pha
        sty rock
        ldx size,y
        lda booms,x
        sta pitch
        lda #15
        sta boom
        lda points,x
        tax
count:  ldy #SCORE_DIGITS - 2
        jsr add_one
        dex
        bne count
        ldx rock
        dec size,x
        bmi dust
        jsr throw
        ldy #SHOTS - 1
slot:   lda life,y
        beq split
        dey
        cpy #ROCKS
        bcs slot
        jmp broken
split:  lda #1
        sta life,y
        lda size,x
        sta size,y
        lda x_low,x
        sta x_low,y
        lda x_high,x
        sta x_high,y
        lda y_low,x
        sta y_low,y
        lda y_high,x
        sta y_high,y
        tya
        tax
        jsr throw
broken: pla
        tax
        rts
dust:   lda #0
        sta life,x
        jmp broken

; --- Sounds, lamps and the coin counter ---

sound:  lda boom
        asl a
        asl a
        ora pitch
        sta EXPLOSION
        lda clock
        lsr a
        bcs louder
        lda boom
        beq louder
        dec boom
louder: lda fired
        beq quiet
        dec fired
        lda #SOUND_ON
quiet:  sta SOUND_FIRE
        lda thrusting
        beq no_roar
        lda #SOUND_ON
no_roar:
        sta SOUND_THRUST
        ldx #0              ; two thumps by turns, each a sixth of the time
        lda playing
        beq thump
        lda clock
        and #31
        cmp #4
        bcc first
        sbc #16
        cmp #4
        bcs thump
        ldx #THUMP_ON | 3
        bne thump           ; always
first:  ldx #THUMP_ON | 9
thump:  stx THUMP

        ldx #OUT_LAMP_2 | OUT_LAMP_1
        lda playing
        bne dark
        jsr may_start
        bcc dark
        lda clock
        and #16
        beq dark
        ldx #OUT_LAMP_2     ; the lamp of start 1 blinks where a game may start
dark:   txa
        ldy counting
        beq outputs
        dec counting
        ora #OUT_COIN_LEFT
outputs:
        sta OUTPUTS
        rts

; --- The picture ---

; Puts a position of the object X into dvg_x or dvg_y: ten bits of sixteen.
.macro place low, high, into
        lda #0
        sta into + 1
        lda low,x
        sta scratch
        lda high,x
        asl scratch
        rol a
        rol into + 1
        asl scratch
        rol a
        rol into + 1
        sta into
.endmacro

; A LABS to the object X; A is 16 times the scale.
go_to:  stx which
        pha
        place x_low, x_high, dvg_x
        place y_low, y_high, dvg_y
        pla
        jmp dvg_labs

; Calls shape Y of the list.
put_shape:
        cpy #SHAPE_FLAME + 16
        bcs no_shape
        lda shapes_high,y
        ora #$C0
        tax
        lda shapes_low,y
        jmp dvg_put
no_shape:
        rts

draw:   jsr dvg_open
        say score_place     ; a frame begins with a LABS
        ldx #<score
        jsr print_number
        say high_place
        ldx #<high
        jsr print_number
        jsr draw_rocks
        jsr draw_shots
        lda playing
        bne in_game
        say title_text
        lda over
        beq no_over
        say over_text
no_over:
        lda clock
        and #32
        beq credits
        jsr may_start
        bcs can
        say coin_text
        jmp credits
can:    say start_text
credits:
        lda SWITCHES_COINAGE
        and #SWITCHES_MASK
        beq is_free
        say credit_text
        lda halves
        lsr a
        cmp #10
        bcc digit
        lda #9
digit:  tay
        jsr put_letter
        jmp dvg_close
is_free:
        say free_text
        jmp dvg_close

in_game:
        jsr draw_lives
        jsr draw_ship
        jmp dvg_close

draw_rocks:
        ldx #SHOTS - 1
each:   lda life,x
        beq no_rock
        ldy size,x
        lda scales,y
        jsr go_to
        lda which
        and #3
        cmp #3
        bcc kind
        lda #0
kind:   adc #SHAPE_ROCK     ; C is clear, or the rock is of another kind
        tay
        jsr put_shape
        ldx which
no_rock:
        dex
        cpx #ROCKS
        bcs each
        rts

draw_shots:
        ldx #COUNT - 1
fly:    lda life,x
        beq no_shot
        lda #0
        jsr go_to
        ldy #SHAPE_SHOT
        jsr put_shape
        ldx which
no_shot:
        dex
        cpx #SHOTS
        bcs fly
        rts

draw_lives:
        say lives_place
        lda lives
        beq drawn
        sta which
one:    ldy #SHAPE_SHIP + 4
        jsr put_shape
        ldy #BLANK
        jsr put_letter
        dec which
        bne one
drawn:  rts

; The ship blinks while no rock hits it. Where it was hit a burst grows.
draw_ship:
        lda life + SHIP
        beq burst_
        lda shield
        and #4
        bne drawn
        ldx #SHIP
        lda #0
        jsr go_to
        lda direction
        clc
        adc #SHAPE_SHIP
        tay
        jsr put_shape
        lda thrusting
        beq drawn
        lda clock
        lsr a
        bcs drawn
        lda direction
        adc #SHAPE_FLAME
        tay
        jmp put_shape
burst_: lda pause
        cmp #60
        bcc drawn
        sbc #60
        lsr a
        lsr a
        lsr a               ; 3, 2, 1, 0
        tay
        ldx #SHIP
        lda burst_scales,y
        jsr go_to
        ldy #SHAPE_BURST
        jmp put_shape

; --- Tables ---

.segment "DATA"

.define OTHERS rock_0, rock_1, rock_2, shot, burst
.define SHIPS_A ship_0, ship_1, ship_2, ship_3, ship_4, ship_5, ship_6, ship_7
.define SHIPS_B ship_8, ship_9, ship_10, ship_11, ship_12, ship_13, ship_14, ship_15
.define FLAMES_A flame_0, flame_1, flame_2, flame_3, flame_4, flame_5, flame_6, flame_7
.define FLAMES_B flame_8, flame_9, flame_10, flame_11, flame_12, flame_13, flame_14, flame_15

SHAPE_ROCK  = 0
SHAPE_SHOT  = 3
SHAPE_BURST = 4
SHAPE_SHIP  = 5
SHAPE_FLAME = 21

shapes_low:
        .lobytes OTHERS, SHIPS_A, SHIPS_B, FLAMES_A, FLAMES_B
shapes_high:
        .hibytes OTHERS, SHIPS_A, SHIPS_B, FLAMES_A, FLAMES_B
        .assert shapes_high - shapes_low = SHAPE_FLAME + 16, error, "the list has other shapes"

        cosine_table cosines_low, cosines_high, 1152
        cosine_table pushes_low, pushes_high, 24

; By the size of a rock: small, middle, large.
scales: .byte $F0, $00, $10
radii:  .byte 4, 8, 15      ; in four units
points: .byte 10, 5, 2      ; tens
booms:  .byte $C0, $80, $40 ; the pitch of its explosion

burst_scales:
        .byte $20, $10, $00, $F0

coin_halves:
        .byte 0, 4, 2, 1

title_text:     line_at 318, 620, 1, "GRAVEL"
over_text:      line_at 362, 520, 0, "GAME OVER"
coin_text:      line_at 344, 400, 0, "INSERT COIN"
start_text:     line_at 344, 400, 0, "PRESS START"
credit_text:    line_at 408, 160, 15, "CREDITS  "
free_text:      line_at 430, 160, 15, "FREE PLAY"
test_text:      line_at 200, 640, 1, "SELF TEST"
test_letters:   line_at 200, 540, 15, "ABCDEFGHIJKLMNOPQRSTUVWXYZ 0123456789"
test_buttons:   line_at 200, 460, 0, "BUTTONS "
score_place:    line_at 60, 840, 0, ""
high_place:     line_at 720, 840, 15, "HIGH "
lives_place:    line_at 80, 810, 15, ""

.segment "VECTORS"
        .word nmi, reset, irq

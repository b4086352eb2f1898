; A flight through a cave: fire or thrust climbs, and nothing falls. Whoever presses nothing sees it
; fly itself, and hears nothing: the thrust is that of a hand, and so is the wreck.
;
; Nothing paces its pictures but HALT: each is built while the one before is drawn, and shown as
; soon as that is done. Its lines are of scale 9, so a picture takes the beam 34 milliseconds. The
; world goes by NMIs, so it is as fast however long that takes.
;
; Heights are bytes of four units. Of columns the first one stands at the left edge.

.include "dvg.inc"
.include "asteroids.inc"
.include "shapes.equates"
.include "letters.inc"

SCORE_DIGITS = 4

COLUMNS    = 17
WIDTH      = 64             ; units from a column to the next one
SPEED      = 16             ; units that the cave moves in a step
STEP_BEATS = 4              ; NMIs, each 4 ms
SHIP_X     = 236
SHIP_AT    = 4              ; its column
LOWEST     = 98             ; between which the middle of the cave is
HIGHEST    = 156
GAP        = 50             ; from there to its floor, and to its ceiling
WRECKED    = 45             ; steps until the next ship
HAND       = 240            ; steps for which a hand counts, after its last press
MOST_SPEED = 20
LINE       = (9 << 4) | 10  ; scale and intensity
RIB        = (9 << 4) | 3
SHIP_LINE  = (9 << 4) | 15

.segment "ZEROPAGE"
beats:  .res 1              ; NMIs
taken:  .res 1              ; those that the world has gone by
clock:  .res 1              ; steps
offset: .res 1              ; how far the second column is from the first one's place, 1 to 64
middle: .res 1              ; of the newest column
slope:  .res 1              ; of the middle, from column to column
hand:   .res 1              ; steps for which a hand still counts
wreck:  .res 1              ; steps until the next ship
height: .res 1              ; of the ship
part:   .res 1              ; of its height, in 256 of these
speed:  .res 1              ; upwards, in sixteenths of a height
which:  .res 1
place:  .res 2
scratch: .res 1

.segment "BSS"              ; where no index can run over into the driver's bytes
score:   .res SCORE_DIGITS
floor:   .res COLUMNS
ceiling: .res COLUMNS

.include "parts/random.inc"
.include "parts/score.inc"

.segment "CODE"

reset:  lda #DVG_START      ; first of all: after power-on dvg_phase is a byte of chance
        sta dvg_phase
        sei
        cld
        ldx #$FF
        txs
        sta WATCHDOG
        jsr dvg_reset
        jsr dvg_run         ; boots: waits until the generator is halted
        jsr begin

picture:
        sta WATCHDOG        ; or the board resets the processor
        jsr pass
        jsr draw
        jsr dvg_run         ; waits for the generator, and shows the new picture
        jmp picture

; Lets as many steps of the world pass as are due.
pass:   sec
        lda beats
        sbc taken
        cmp #STEP_BEATS
        bcc passed
        lda taken
        clc
        adc #STEP_BEATS
        sta taken
        jsr step
        jmp pass
passed: rts

begin:  lda #0
        sta beats
        sta taken
        sta clock
        sta hand
        sta slope
        lda #$5A
        sta chance
        lda #128
        sta middle
        lda #WIDTH
        sta offset
        lda #0
        ldx #COLUMNS - 1
clear:  sta floor,x
        sta ceiling,x
        dex
        bpl clear
        ldx #COLUMNS
fill:   stx which
        jsr next_column
        ldx which
        dex
        bne fill
        ; falls through

new_ship:
        lda #0
        sta wreck
        sta speed
        sta part
        ldx #SCORE_DIGITS - 1
no_score:
        sta score,x
        dex
        bpl no_score
        jmp to_middle

; --- The world ---

step:   inc clock
        lda offset
        sec
        sbc #SPEED
        beq turns
        bcs stays
turns:  clc
        adc #WIDTH
        sta offset
        jsr next_column
        ldy #SCORE_DIGITS - 1
        lda wreck
        bne moved
        jsr add_one
        jmp moved
stays:  sta offset
moved:  lda wreck
        beq flies
        dec wreck
        lda wreck
        sta EXPLOSION       ; as loud as it is new
        bne waits
        jmp new_ship
waits:  rts

flies:  lda IN_FIRE
        ora IN_THRUST
        sta SOUND_THRUST
        bpl no_hand
        lda #HAND
        sta hand
        bne climbs          ; always
no_hand:
        lda hand
        beq itself
        dec hand
        jmp sinks

; It flies itself: it climbs where it will soon be below the middle of the cave.
itself: lda floor + SHIP_AT + 2
        clc
        adc ceiling + SHIP_AT + 2
        ror a
        sta scratch
        lda speed
        cmp #$80
        ror a
        clc
        adc height
        cmp scratch
        bcs sinks

climbs: lda speed
        clc
        adc #2
        bmi faster
        cmp #MOST_SPEED
        bcs flown
faster: sta speed
        jmp flown
sinks:  lda speed
        sec
        sbc #2
        bpl slower
        cmp #256 - MOST_SPEED
        bcc flown
slower: sta speed
        ; falls through

; The ship moves by sixteenths, and hits what is above or below it.
flown:  ldx #0
        lda speed
        bpl upwards
        dex
upwards:
        stx scratch         ; the speed's upper byte
        ldx #4
sixteen:
        asl a
        rol scratch
        dex
        bne sixteen
        clc
        adc part
        sta part
        lda height
        adc scratch
        sta height
        cmp floor + SHIP_AT
        bcc hits
        cmp ceiling + SHIP_AT
        bcs hits
        rts
hits:   lda hand
        beq to_middle       ; what flies itself is never wrecked
        lda #WRECKED
        sta wreck
        lda #0
        sta SOUND_THRUST
        rts

to_middle:
        lda floor + SHIP_AT
        clc
        adc ceiling + SHIP_AT
        ror a
        sta height
        rts

; All columns move to the left, and a new one comes in at the right. Keeps nothing.
next_column:
        ldx #0
shift:  lda floor + 1,x
        sta floor,x
        lda ceiling + 1,x
        sta ceiling,x
        inx
        cpx #COLUMNS - 1
        bcc shift
        jsr random          ; the slope of the middle: -8 to 7 more, and no steeper than 12
        and #%00001111
        sec
        sbc #8
        clc
        adc slope
        bmi falls
        cmp #13
        bcc kept_slope
        lda #12
        bne kept_slope      ; always
falls:  cmp #256 - 12
        bcs kept_slope
        lda #256 - 12
kept_slope:
        sta slope
        clc
        adc middle
        cmp #LOWEST
        bcs not_low
        lda #8
        sta slope
        lda #LOWEST
not_low:
        cmp #HIGHEST
        bcc not_high
        lda #256 - 8
        sta slope
        lda #HIGHEST
not_high:
        sta middle
        jsr random          ; its floor and its ceiling are rough
        and #%00001111
        sta scratch
        sec
        lda middle
        sbc #GAP
        sbc scratch
        sta floor + COLUMNS - 1
        jsr random
        and #%00001111
        clc
        adc middle
        adc #GAP
        sta ceiling + COLUMNS - 1
        rts

; --- The picture ---

; Four times A, a height, as dvg_y.
.macro four_times
    .local below
        ldx #0
        asl a
        bcc below
        inx
below:  stx dvg_y + 1
        asl a
        rol dvg_y + 1
        sta dvg_y
.endmacro

; A line by A, four units upwards each, and so many units to the right.
.macro line_by right, line
        jsr far
        lda #<(right)
        sta dvg_x
        lda #>(right)
        sta dvg_x + 1
        lda #line
        jsr dvg_vector
.endmacro

; Four times A, -128 to 127, as dvg_y.
far:    ldx #0
        cmp #$80
        bcc rises
        dex
rises:  stx dvg_y + 1
        asl a
        rol dvg_y + 1
        asl a
        rol dvg_y + 1
        sta dvg_y
        rts

; Column by column from the left, so that a picture that is mixed has a right side of another time:
; along the floor, up to the ceiling, and back.
draw:   jsr dvg_open
        jsr draw_ship
        lda offset
        sta place
        lda #0
        sta place + 1
        ldx #1
column: stx which
        lda floor,x
        four_times
        lda place
        sta dvg_x
        lda place + 1
        sta dvg_x + 1
        lda #0
        jsr dvg_labs
        ldx which
        sec
        lda floor + 1,x
        sbc floor,x
        line_by WIDTH, LINE
        ldx which
        sec
        lda ceiling + 1,x
        sbc floor + 1,x
        jsr rise
        ldx which
        sec
        lda ceiling,x
        sbc ceiling + 1,x
        line_by -WIDTH, LINE
        clc
        lda place
        adc #WIDTH
        sta place
        bcc no_carry
        inc place + 1
no_carry:
        ldx which
        inx
        cpx #COLUMNS - 1
        bcs drawn
        jmp column
drawn:  jsr draw_score
        jmp dvg_close

; A line up by four times A.
rise:   four_times
        lda #0
        sta dvg_x
        sta dvg_x + 1
        lda #RIB
        jmp dvg_vector

draw_score:
        lda hand
        beq no_hand_yet
        say score_place
        ldx #<score
        jmp print_number
no_hand_yet:
        rts

.macro line_to dx, dy
        lda #<(dx)
        sta dvg_x
        lda #>(dx)
        sta dvg_x + 1
        lda #<(dy)
        sta dvg_y
        lda #>(dy)
        sta dvg_y + 1
        lda #SHIP_LINE
        jsr dvg_vector
.endmacro

draw_ship:
        lda wreck
        beq is_there
        and #%00000010
        beq is_there
        rts
is_there:
        lda height
        four_times
        lda #<SHIP_X
        sta dvg_x
        lda #>SHIP_X
        sta dvg_x + 1
        lda #0
        jsr dvg_labs
        line_to -44, 16
        line_to 10, -16
        line_to -10, -16
        line_to 44, 16
        rts

nmi:    inc beats
irq:    rti

.segment "DATA"

score_place: line_at 440, 826, 1, ""

.segment "VECTORS"
        .word nmi, reset, irq

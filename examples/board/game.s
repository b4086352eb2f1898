; A small game that plays itself: a ship turns and shoots at rocks, and a score counts. It builds
; each picture anew in the free half. Of each 256 pictures 64 are of a title, which are tables.
; With -D BY_NMI=1 the driver's ticks come from the NMI, without it from this program. For tests
; -D TITLES=1 shows the title alone, and -D NO_PACE=1 goes as fast as it can.

.include "dvg.inc"
.include "shapes.equates"

WATCHDOG = $3400

SHIP  = 0               ; the objects: the ship, rocks and shots
ROCKS = 1
SHOTS = 6
COUNT = 10

.segment "ZEROPAGE"

beats:     .res 1       ; NMIs since the last picture, each 4 ms
awake:     .res 1       ; 1: the driver was reset, and no NMI is ticking
shown:     .res 1       ; pictures
direction: .res 1       ; of the ship, 0 to 15
chance:    .res 1
which:     .res 1       ; the object that is drawn
scratch:   .res 1
.segment "BSS"          ; where no index can run over into the driver's bytes

score:     .res 4       ; its digits, the greatest first

objects:                ; positions and moves are in 1/64 of a unit
x_low:     .res COUNT
x_high:    .res COUNT
y_low:     .res COUNT
y_high:    .res COUNT
dx_low:    .res COUNT
dx_high:   .res COUNT
dy_low:    .res COUNT
dy_high:   .res COUNT
life:      .res COUNT   ; 0: it isn't there. Of a shot: the pictures that it has still to fly
shape:     .res COUNT   ; the number of its shape
size:      .res COUNT   ; 16 times its global scale
objects_end:

.segment "CODE"

reset:  lda #DVG_START          ; first of all: dvg_phase is a byte of chance
        sta dvg_phase
        sta awake
        sei
        cld
        ldx #$FF
        txs
        jsr dvg_reset
        lda #1
        sta awake
        jsr begin
        jsr finish              ; boots

picture:
        sta WATCHDOG
.ifndef NO_PACE
        lda beats               ; some thirty pictures a second
        cmp #8
        bcc picture
.endif
        lda #0
        sta beats
        inc shown
        lda shown
.ifdef TITLES
        jmp title
.endif
        cmp #$C0
        bcs title
        jsr move
        jsr shoot
        jsr hit
        jsr draw
        jsr finish
        jmp picture

title:  and #3                  ; each title is drawn four times
        bne again
        lda shown
        lsr a
        lsr a
        and #$0F
        tay
        cpy #16
        bcs again
        lda tables_low,y
        ldx tables_high,y
        jsr dvg_offer
        jsr finish
        jmp picture

again:  jsr dvg_redraw
        jsr finish
        jmp picture

; Waits until the driver is idle.
.ifdef BY_NMI
finish: sta WATCHDOG
        lda dvg_phase
        cmp #DVG_IDLE
        bne finish
        rts

nmi:    lsr awake               ; until its ticks are done, the next NMI only counts
        bcc asleep
        pha
        txa
        pha
        tya
        pha
        lda #24                 ; at most 53 last less than 4 ms
        jsr dvg_ticks
        pla
        tay
        pla
        tax
        pla
        inc awake
asleep: inc beats
        rti
.else
finish = dvg_run

nmi:    inc beats
        rti
.endif

irq:    rti

; --- The game ---

begin:  ldx #objects_end - objects - 1
copy:   lda first_objects,x
        sta objects,x
        dex
        bpl copy
        lda #0
        sta beats
        sta shown
        sta direction
        ldx #3
clear:  sta score,x
        dex
        bpl clear
        lda #$5A
        sta chance
        rts

; A number by chance.
random: lda chance
        asl a
        bcc kept
        eor #$1D
kept:   sta chance
        rts

move:   ldx #COUNT - 1
next:   lda life,x
        beq still
        clc
        lda x_low,x
        adc dx_low,x
        sta x_low,x
        lda x_high,x
        adc dx_high,x
        sta x_high,x
        clc
        lda y_low,x
        adc dy_low,x
        sta y_low,x
        lda y_high,x
        adc dy_high,x
        sta y_high,x
        cpx #SHOTS
        bcc still
        dec life,x
still:  dex
        bpl next
        rts

; The ship turns each fourth picture, and shoots each eighth one, where a shot is free.
shoot:  lda shown
        and #3
        bne aimed
        inc direction
        lda direction
        and #15
        sta direction
        sta shape + SHIP
aimed:  lda shown
        and #7
        bne ready
        ldx #COUNT - 1
search: lda life,x
        beq fire
        dex
        cpx #SHOTS
        bcs search
ready:  rts

fire:   lda #28
        sta life,x
        lda x_low + SHIP
        sta x_low,x
        lda x_high + SHIP
        sta x_high,x
        lda y_low + SHIP
        sta y_low,x
        lda y_high + SHIP
        sta y_high,x
        ldy direction
        lda cosines_low,y
        sta dx_low,x
        lda cosines_high,y
        sta dx_high,x
        tya
        clc
        adc #12                 ; a sine is the cosine of a quarter turn less
        and #15
        tay
        lda cosines_low,y
        sta dy_low,x
        lda cosines_high,y
        sta dy_high,x
        rts

; Each shot that is near a rock hits it.
hit:    ldx #COUNT - 1
shot_:  lda life,x
        beq over
        ldy #SHOTS - 1
rock_:  lda x_high,x
        sec
        sbc x_high,y
        clc
        adc #9
        cmp #19
        bcs far
        lda y_high,x
        sec
        sbc y_high,y
        clc
        adc #9
        cmp #19
        bcs far
        jsr break
far:    dey
        bne rock_
over:   dex
        cpx #SHOTS
        bcs shot_
        rts

; The shot X is gone, the rock Y comes in anew from the left, and the score has ten more.
break:  lda #0
        sta life,x
        sta x_high,y
        jsr random
        sta y_high,y
        jsr random
        sta dx_low,y
        jsr random
        sta dy_low,y
        txa
        pha
        ldx #2
carry:  inc score,x
        lda score,x
        cmp #10
        bcc counted
        lda #0
        sta score,x
        dex
        bpl carry
counted:
        pla
        tax
        rts

; --- The picture ---

; Puts a position of the object X into dvg_x or dvg_y: ten bits of sixteen.
.macro place low, high, into
        lda #0
        sta into + 1
        lda low,x
        sta scratch
        lda high,x
        asl scratch
        rol a
        rol into + 1
        asl scratch
        rol a
        rol into + 1
        sta into
.endmacro

draw:   jsr dvg_open
        ldx #COUNT - 1
object: stx which
        lda life,x
        beq gone
        place x_low, x_high, dvg_x
        place y_low, y_high, dvg_y
        lda size,x
        jsr dvg_labs
        ldx which
        ldy shape,x
        jsr put_shape
gone:   ldx which
        dex
        bpl object
        lda #<100
        sta dvg_x
        lda #>100
        sta dvg_x + 1
        lda #<820
        sta dvg_y
        lda #>820
        sta dvg_y + 1
        lda #0
        jsr dvg_labs
        ldx #0
digit:  stx which
        lda score,x
        clc
        adc #DIGITS
        tay
        jsr put_shape
        ldx which
        inx
        cpx #4
        bne digit
        jmp dvg_close

; Puts a call of shape Y of the list.
put_shape:
        cpy #LISTED
        bcs no_shape
        lda shapes_high,y
        ora #$C0                ; a call
        tax
        lda shapes_low,y
        jmp dvg_put
no_shape:
        rts

; --- Tables ---

.segment "DATA"

.define SHIPS_A ship_0, ship_1, ship_2, ship_3, ship_4, ship_5, ship_6, ship_7
.define SHIPS_B ship_8, ship_9, ship_10, ship_11, ship_12, ship_13, ship_14, ship_15
.define DIGITS_A digit_0, digit_1, digit_2, digit_3, digit_4
.define DIGITS_B digit_5, digit_6, digit_7, digit_8, digit_9
.define OTHERS shot, rock_0, rock_1, rock_2
SHOT_SHAPE = 16
ROCK_SHAPE = 17
DIGITS = 20
LISTED = 30
.define COSINES 768, 710, 543, 294, 0, -294, -543, -710, -768, -710, -543, -294, 0, 294, 543, 710

shapes_low:
        .lobytes SHIPS_A, SHIPS_B, OTHERS, DIGITS_A, DIGITS_B
shapes_high:
        .hibytes SHIPS_A, SHIPS_B, OTHERS, DIGITS_A, DIGITS_B
        .assert shapes_high - shapes_low = LISTED, error, "the list has other shapes"
cosines_low:
        .lobytes COSINES
cosines_high:
        .hibytes COSINES

first_objects:
        .byte 0, 0, 0, 0, 0, 0, 0, 0, 0, 0              ; x
        .byte 128, 40, 200, 70, 230, 150, 0, 0, 0, 0
        .byte 0, 0, 0, 0, 0, 0, 0, 0, 0, 0              ; y
        .byte 128, 60, 90, 190, 170, 200, 0, 0, 0, 0
        .byte 40, 120, 60, 160, 90, 200, 0, 0, 0, 0     ; moves along x
        .byte 0, 0, $FF, 0, $FF, 0, 0, 0, 0, 0
        .byte 30, 90, 130, 50, 170, 20, 0, 0, 0, 0      ; and along y
        .byte 0, 0, 0, $FF, 0, $FF, 0, 0, 0, 0
        .byte 1, 1, 1, 1, 1, 1, 0, 0, 0, 0              ; life
        .byte 0, ROCK_SHAPE, ROCK_SHAPE + 1, ROCK_SHAPE + 2, ROCK_SHAPE, ROCK_SHAPE + 1
        .byte SHOT_SHAPE, SHOT_SHAPE, SHOT_SHAPE, SHOT_SHAPE
        .byte 0, 0, 0, 0, $F0, $F0, 0, 0, 0, 0          ; two rocks are half as large

.include "tables.inc"

.segment "VECTORS"
        .word nmi, reset, irq

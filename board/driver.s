; A frame driver for the Digital Vector Generator, for the 6502: the script of the proved driver
; in crates/dvg_driver, action by action. crates/dvg_calls_6502 proves it of the bytes of all
; routines but dvg_copy; all of it is tested against that driver (tests/board). docs/BOARD.md shows
; how a program uses it, and README.md has the cycles and bytes of each routine.
;
;   dvg_reset    before all others, once after each reset of the processor
;   dvg_tick     does one action: writes one byte, looks at byte 001, reads the flag, or sends the
;                strobe; or none, where it is idle or a frame is being built
;   dvg_ticks    does A ticks, 1 to 255, or 256 where A is 0
;   dvg_run      ticks until the driver is idle, so it waits for the generator. It returns at once
;                while a frame is being built. It writes a table by a loop of its own, which takes
;                a third of the time; -D DVG_SMALL=1 leaves that loop out.
;   dvg_offer    takes the frame of the table at A (low), X (high), which stays as it is until the
;                driver is idle. C clear: taken. C set: busy, nothing was changed.
;   dvg_redraw   asks for the published frame once more. C clear: taken. C set: busy, or nothing
;                was published since the reset.
;
; A table is the number of words, 1 to 511, low byte first, and then the words as they stand in
; half 0. Only calls and jumps within the frame differ in half 1: by bit 1 of the high byte. The
; driver knows them by their words, C0xx, C1xx, E0xx and E1xx, so each call of the ROM names a
; word from 400 on. `dvg lay --table` makes tables, and refuses a frame that has another call.
;
; A program that makes each frame anew builds it in the free half:
;
;   dvg_open     begins a frame. C clear: done. C set: busy.
;   dvg_put      puts an instruction of one word: A the low byte, X the high one
;   dvg_pair     puts one of two words: the first from dvg_y (low, high), the second from dvg_x
;   dvg_labs     puts a LABS to dvg_x, dvg_y, of which it takes the low 12 bits: A is 16 times the
;                scale. It changes dvg_x and dvg_y.
;   dvg_vector   puts a vector by dvg_x, dvg_y (-1023 to 1023 each), as a short one where that holds
;                it: A is 16 times the scale (0 to 9), and the intensity. It changes dvg_x and
;                dvg_y. C set: no room, or there is no such vector.
;   dvg_copy     puts Y bytes, an even number up to 254, from A (low), X (high) on: whole
;                instructions, none of which calls or jumps within the frame
;   dvg_close    ends the frame with a HALT; ticks then publish it
;
; Where an instruction has no room (510 words and the HALT), nothing of it is put, and C is set.
; The same where no frame is being built. Nothing checks what is built: it begins with a LABS, it
; calls the ROM alone, or nothing. dvg_copy needs D clear. A, X and Y aren't kept.
;
; Five traps:
;   - After power-on dvg_phase is a byte of chance, and a tick would act on it. So a program's
;     first instructions set it to 0, and the NMI's ticks wait until dvg_reset was called.
;   - Ticks come from one place: from the NMI, or from the main program. Offers, redraws and
;     building may come from the main program even so: each changes dvg_phase last.
;   - An NMI does at most 53 ticks, so that it ends before the next one, which can't be masked. Or a
;     busy byte keeps an NMI from ticking amid the ticks of another one.
;   - Where the main program ticks, an NMI doesn't offer, open or redraw: amid a tick the driver may
;     be idle before its strobe is sent, or busy after the boot is done.
;   - Hardware is touched once, by absolute addresses. `sta (to),y` reads before it writes, and
;     INC writes twice. The RAM doesn't mind; byte 001, the flag and the strobe do.

.include "dvg.inc"

.segment "ZEROPAGE"

dvg_phase: .res 1       ; DVG_START and so on
free:      .res 1       ; E0 or E2: byte 001 as it will name the free half
publish:   .res 1       ; the phase after a frame's last byte: DVG_FLIP once a frame was
                        ; published since the reset, DVG_ZERO before that
at:        .res 1       ; the next byte is this one from `to` on, and of a table from `from` on
to:        .res 2       ; the free half, and a page further for each 256 bytes
pages:     .res 1       ; of a table: pages that end before the last byte. Building: those after
end:       .res 1       ; of a table: `at` after its last byte. dvg_copy: after the last byte copied
second:    .res 1       ; of a table: bit 7: the next word is the second one of its instruction
from:      .res 2       ; of a table, moved on with `to`; or the bytes that dvg_copy copies
dvg_y:     .res 2       ; for dvg_labs, dvg_vector and dvg_pair: y, or the first word
dvg_x:     .res 2       ; x, or the second word
left:      .res 1       ; ticks that dvg_ticks has still to do
length:    .res 1       ; bytes that dvg_copy copies. dvg_vector: the scale and the intensity

.segment "CODE"

dvg_reset:
        lda #DVG_START
        sta dvg_phase
        lda #DVG_ZERO
        sta publish
        rts

dvg_run:
        lda dvg_phase
.ifndef DVG_SMALL
        bmi burst
.endif
        cmp #DVG_IDLE
        beq ran
        cmp #DVG_BUILD
        beq ran
tick:   jsr dvg_tick
        jmp dvg_run
ran:    rts

.ifndef DVG_SMALL
; The rest of a table's bytes, as ticks would write them.
burst:  ldy at
        tya
        lsr a
        bcs tick                ; a high byte is next
low:    lda (from),y
        sta (to),y
        iny
        lda (from),y
        asl second
        bcs put                 ; a second word is no instruction
        cmp #$B0
        bcc two                 ; opcodes 0 to A have a second word
        tax
        and #$DC
        cmp #$C0
        beq ours                ; C0, C1, E0, E1: a call or a jump within the frame
        txa
put:    sta (to),y
        iny
        bne page
        inc from + 1
        inc to + 1
        dec pages
page:   cpy end
        bne low
        lda pages
        bne low
        lda publish
        sta dvg_phase
        bne tick                ; always: no phase of `publish` is 0

two:    ldx #$80
        stx second
        bne put                 ; always

ours:   lda free
        and #$02
        ora (from),y
        bne put                 ; always
.endif

dvg_ticks:
        sta left
again:  jsr dvg_tick
        dec left
        bne again
        rts

; --- One action ---

dvg_tick:
        ldx dvg_phase
        bmi write
        beq start
        dex
        beq boot
        dex
        beq none                ; DVG_IDLE
        dex
        beq zero
        dex
        beq flip
        dex
        beq wait
        dex
        bne none                ; DVG_BUILD
        lda #DVG_IDLE           ; DVG_SEND
        sta dvg_phase
        sta DVG_GO
none:   rts

start:  lda DVG_RAM + 1         ; the byte that names the current half
        and #$02
        eor #$E2                ; the other half is free
        sta free
        inc dvg_phase
        rts

boot:   dvg_if_running none
        inc dvg_phase
        rts

zero:   lda #$01
        sta DVG_RAM
        inc dvg_phase
        rts

flip:   lda free
        sta DVG_RAM + 1
        eor #$02                ; the other half is free once the generator is halted
        sta free
        lda #DVG_FLIP
        sta publish
        inc dvg_phase
        rts

wait:   dvg_if_running none
        inc dvg_phase
        rts

write:  ldy at
        tya
        lsr a
        lda (from),y
        bcc store               ; a low byte
        asl second
        bcs store               ; a second word is no instruction
        cmp #$B0
        bcc double              ; opcodes 0 to A have a second word
        tax
        and #$DC
        cmp #$C0
        beq local               ; C0, C1, E0, E1: a call or a jump within the frame
        txa
        bne store               ; always

double: ldx #$80
        stx second
        bne store               ; always

local:  lda free
        and #$02
        ora (from),y

store:  sta (to),y
        iny
        sty at
        bne same
        inc from + 1
        inc to + 1
        dec pages
same:   cpy end
        bne done
        lda pages
        bne done
        lda publish             ; that was the last byte
        sta dvg_phase
done:   rts

; --- Frames ---

dvg_offer:
        ldy dvg_phase
        cpy #DVG_IDLE
        bne refuse
        sta from
        stx from + 1
        ldy #1
        lda (from),y            ; the number of words
        sta pages
        dey
        lda (from),y
        asl a
        rol pages
        sta end
        inc end                 ; and its own two bytes
        inc end
        bne sized
        inc pages
sized:  sty second              ; Y is 0
        ldx #DVG_WRITE
        bne ready               ; always

dvg_open:
        ldy dvg_phase
        cpy #DVG_IDLE
        bne refuse
        ldy #0
        sty pages
        ldx #DVG_BUILD
ready:  sty to
        lda free
        and #$02
        asl a                   ; half 1 stands $400 after half 0
        ora #>DVG_RAM
        sta to + 1
        ldy #2                  ; after word zero, or word 200
        sty at
        stx dvg_phase           ; last, as the NMI may tick
        clc
        rts

dvg_redraw:
        lda dvg_phase
        cmp #DVG_IDLE
        bne refuse
        lda publish
        cmp #DVG_FLIP
        bne refuse              ; nothing was published
        lda #DVG_WAIT
        sta dvg_phase
        clc
        rts

refuse: sec
        rts

; --- Frames that the program builds ---

dvg_put:
        ldy dvg_phase
        cpy #DVG_BUILD
        bne refuse
        ldy pages
        cpy #3
        ldy at
        bcc word                ; the last page has room up to its last word, which is the HALT's
        cpy #$FE
        bcs full
word:   sta (to),y
        iny
        txa
        sta (to),y
        iny
        sty at
        bne full                ; words are even: a page ends after one
        inc to + 1
        inc pages
full:   rts

dvg_labs:
        eor dvg_x + 1           ; the high four bits of A, and the low four of x
        and #$F0
        eor dvg_x + 1
        sta dvg_x + 1
        lda dvg_y + 1
        and #$0F
        ora #$A0
        sta dvg_y + 1
dvg_pair:
        ldy dvg_phase
        cpy #DVG_BUILD
        bne no
        ldy pages
        cpy #3
        ldy at
        bcc pair
        cpy #$FC
        bcs full
pair:   lda dvg_y
        sta (to),y
        iny
        lda dvg_y + 1
        sta (to),y
        iny
        bne other
        inc to + 1
        inc pages
other:  lda dvg_x
        sta (to),y
        iny
        lda dvg_x + 1
        sta (to),y
        iny
        sty at
        bne full
        inc to + 1
        inc pages
        rts

no:     sec
        rts

dvg_copy:
        sty length
        ldy dvg_phase           ; first, as `from` may be that of a table that is being written
        cpy #DVG_BUILD
        bne no
        sta from
        stx from + 1
        lda length
        clc
        adc at
        sta end
        lda pages
        adc #0
        cmp #4                  ; it ends before the last word, which is the HALT's
        bcs full
        lda from                ; so that `at` counts from it, too
        sec
        sbc at
        sta from
        bcs begin
        dec from + 1
begin:  ldy at
        jmp more

next:   lda (from),y
        sta (to),y
        iny
        bne more
        inc from + 1
        inc to + 1
        inc pages
more:   cpy end
        bne next
        sty at
        clc
        rts

dvg_close:
        ldy dvg_phase
        cpy #DVG_BUILD
        bne no
        ldy at
        lda #$00
        sta (to),y
        iny
        lda #$B0                ; the HALT, whose room is always left
        sta (to),y
        lda publish
        sta dvg_phase
        clc
        rts

dvg_vector:
        cmp #$A0
        bcs beyond              ; no scale is above 9
        sta length
        ldx #2                  ; first dvg_x, then dvg_y
axis:   lda dvg_y + 1,x
        bpl plus
        lda dvg_y,x             ; minus is each bit the other way, of 1 less
        bne less
        dec dvg_y + 1,x
less:   dec dvg_y,x
        lda dvg_y,x
        eor #$FF
        sta dvg_y,x
        lda dvg_y + 1,x
        eor #$FF
        cmp #$04
        bcs beyond
        ora #$04                ; the sign, which zero never has
        bne sign                ; always
plus:   cmp #$04
        bcs beyond
sign:   sta dvg_y + 1,x
        dex
        dex
        bpl axis
        lda dvg_y
        ora dvg_x
        bne long                ; a short vector goes by 0, 256, 512 or 768
        lda length
        cmp #$20
        bcc long                ; and its scale is 2 to 5
        cmp #$60
        bcs long
        and #$10                ; bit 0 of the scale
        lsr a
        ora dvg_y + 1
        ora #$F0
        tax
        lda length
        asl a                   ; 16 times the intensity
        asl a
        asl a
        asl a
        ora dvg_x + 1
        bit length
        bvc near
        ora #$08                ; the scale is 4 or 5
near:   jmp dvg_put

long:   lda length
        and #$F0
        ora dvg_y + 1
        sta dvg_y + 1
        lda length
        asl a
        asl a
        asl a
        asl a
        ora dvg_x + 1
        sta dvg_x + 1
        jmp dvg_pair

beyond: sec
        rts
dvg_end:                        ; after its code

"""Faults of authors, planted in examples/bat: of each what it is, the old text of game.s, the new
one, words of a line of `make proof`, and its status, if that isn't 1. Reads of the flag and of the
vector RAM are accepted."""

SAVED = 'pha\n        txa\n        pha\n        tya\n        pha\n'
GIVEN_BACK = 'pla\n        tay\n        pla\n        tax\n        pla\n'
FLIES, DRAW, NMI, PICTURE = 'flies:  rts', 'draw:   jsr dvg_open', 'nmi:    inc beats', 'picture:\n'
OPENS = DRAW + '\n        '
MISSED = 'missed: jmp serve'
MOVES = '        jsr move_bat\n'
STACK = '        ldx #$FF\n        txs\n'


def beyond(text):
    """Stands before the RTS of a subroutine."""
    return FLIES, f'flies:  {text}\n        rts'


def in_nmi(text):
    return NMI, f'nmi:    {text}'


def before(old, text):
    return old, f'{text}\n{old}'


ACCEPTED = 'no run of these bytes tears a picture'

FAULTS = [
    ('a store into the vector RAM', *beyond('sta $4002'), '4002, the vector RAM'),
    ('a store into word zero, by an index', *beyond('sta $3FF8,x'), 'by its index it may reach'),
    ('an indexed store that may run over',
     *beyond('sta beats,x'), 'by its index it may reach 0010'),
    ('the strobe by the game', *beyond('sta $3000'), '3000, the strobe'),
    ('a wait for the flag by the game', *beyond('bit $2002'), ACCEPTED, 0),
    ('dvg_phase is set later',
     PICTURE, PICTURE + '        sta dvg_phase\n', 'dvg_labs comes before'),
    ('a store through a pointer', *beyond('sta (text),y'), 'pointer'),
    ('a store into the stack', *beyond('sta $100,x'), '0100, the stack'),
    ('a store into the ROM', *beyond('inc title'), 'ROM'),
    ('an NMI that clobbers Y', *in_nmi('ldy #0\n        sty beats'), 'give back Y'),
    ('an NMI that saves A in X', *in_nmi('tax\n        lda #0\n        sta beats\n        txa'),
     'give back X'),
    ('an NMI that gives back X and Y crosswise',
     *in_nmi(SAVED + '        inc beats\n        pla\n        tax\n        pla\n        tay\n'
             '        pla'), 'give back X'),
    ('an NMI that waits', *in_nmi('inc beats\n        bne nmi'), 'may loop'),
    ('an NMI that ticks', *in_nmi(SAVED + '        jsr dvg_tick\n        ' + GIVEN_BACK
                                  + '        inc beats'), 'the NMI calls dvg_tick'),
    ('an NMI that sets dvg_x',
     *in_nmi('inc beats\n        inc dvg_x'), "driver's byte 1D, in the NMI"),
    ('an NMI that jumps into the program', *in_nmi('inc beats\n        jmp picture'),
     'the NMI leads there, too'),
    ('an array in the zero page, in the program', PICTURE, PICTURE + '        sta $2E,x\n',
     'dvg_labs comes before dvg_reset: the store at game.s line 48 (picture)'),
    ('an NMI that draws', *in_nmi('jsr draw\n        inc beats'), 'the NMI calls a subroutine'),
    ('an NMI that ends with RTS', 'irq:    rti', 'irq:    rts', 'the NMI ends with RTI'),
    ('a PHA too many', 'move_bat:\n', 'move_bat:\n        pha\n', '1 byte more on the stack'),
    ('a PHA on one way only', FLIES, 'flies:  bne even\n        pha\neven:   rts', 'on the stack'),
    ('PLA, PLA, RTS, to leave two at once', *beyond('pla\n        pla'), 'not pushed'),
    ('a jump by a table', MISSED, 'missed: jmp (text)', 'nobody knows'),
    ('RTS as a jump', MISSED, 'missed: lda #>serve\n        pha\n        lda #<serve\n        pha\n'
     '        rts', '2 bytes more on the stack'),
    ('a subroutine that clears the zero page',
     *beyond('sta $00,x'), 'by its index it may reach 0010'),
    ('dvg_phase is cleared where no subroutine is open', PICTURE,
     PICTURE + '        lda #0\n        sta dvg_phase\n', 'dvg_labs comes before'),
    ('dvg_run before dvg_reset', *before('        jsr dvg_reset\n', '        jsr dvg_run'),
     'before dvg_reset'),
    ('dvg_reset on one way only', '        jsr dvg_reset\n',
     '        bit IN_LEFT\n        bmi :+\n        jsr dvg_reset\n:\n', 'before dvg_reset'),
    ('recursion', MISSED, 'missed: jsr move_ball\n        jmp serve', 'call itself'),
    ('a frame that begins with a shape', DRAW, OPENS + 'dvg_call bat', 'begin it with dvg_labs'),
    ('an empty frame',
     DRAW, OPENS + 'jsr dvg_close\n        jsr dvg_open', 'begin it with dvg_labs'),
    ('a word that is no shape', DRAW, OPENS
     + 'draw_at bat_x, bat_y, bat\n        lda #$34\n        ldx #$12\n        jsr dvg_put',
     'it puts 1234', 3),
    ('a shape by an index that is not looked at', DRAW, OPENS
     + 'draw_at bat_x, bat_y, bat\n        ldx letters_high,y\n        jsr dvg_put',
     "what it puts isn't seen", 3),
    ('an offer of what is no table', DRAW,
     'draw:   lda #<title\n        ldx #>title\n        jsr dvg_offer\n        jsr dvg_open',
     'where no table stands', 3),
    ('a call amid the driver', 'jsr dvg_redraw', 'jsr dvg_redraw + 2', 'no routine that is proved'),
    ('a subroutine that runs on into the NMI', '        jmp dvg_close\n\nnmi',
     '        jsr dvg_close\n\nnmi', 'which is nmi, not sub'),
    ('a JMP for a JSR',
     MOVES, MOVES.replace('jsr', 'jmp'), '(picture) one for a JSR'),
    ('JMP and JSR to one subroutine', MOVES,
     ' bit IN_FIRE\n bpl calls\n jmp move_bat\ncalls:\n' + MOVES,
     '(move_bat), which is sub, not main: it is called at game.s line 52 (calls)'),
    ('JMP for JSR of the driver', '        jsr dvg_redraw\n', '        jmp dvg_redraw\n',
     'is this a JMP for a JSR'),
    ('a loop without its JMP', '        jmp picture\n', '', 'is an RTS or JMP missing before it'),
    ('a loop that a subroutine calls', MISSED, 'missed: jsr picture\n        jmp serve',
     "(picture), which is main, not sub: a subroutine ends with RTS, and doesn't lead into"),
    ('code that runs into data', MISSED, 'missed: jmp title', ''),
    ('an opcode that no manual has', *beyond('.byte $07, $20'), '07 is no opcode'),
    ('a BRK', *beyond('brk'), 'where an IRQ does'),
    ('TXS amid a subroutine', *beyond('txs'), 'S is set at a reset alone'),
    ('a call into an unknown list', DRAW, OPENS
     + 'draw_at bat_x, bat_y, bat\n        lda #$34\n        ldx #$E2\n        jsr dvg_put',
     'it puts E234', 3),
    ('bytes by dvg_copy', DRAW, OPENS + 'jsr dvg_copy', "isn't proved: put its words by dvg_put"),
    ('a return from the program', '        jmp picture\n', '        rts\n', 'from level main'),
    ('a read of the strobe', *beyond('lda $3000'), 'it may read 3000'),
    ('a read by an index that may reach the strobe', *beyond('lda $2F80,x'), 'it may read 3000'),
    ('a read of the strobe by its mirror', *beyond('lda $B1FF'), 'it may read B1FF'),
    ('a read of the vector RAM', *beyond('lda $4001'), ACCEPTED, 0),
    ('a store into a mirror', *beyond('stx $8010'), 'the board takes for 0010'),
    ('a store where no output is', *beyond('sta $3800'), 'asteroids.inc names'),
    ('a store of an output by an index',
     *beyond('sta SOUND_SAUCER,x'), 'by its index it may reach 3C06'),
    ('a store into an input', *beyond('dec $2003'), 'an input, or the flag'),
    ('a store into the vector ROM', *beyond('ror $5000'), 'ROM'),
    ("a shift of one of the driver's bytes", *beyond('asl $11'), "driver's byte 11"),
    ('the strobe before TXS', STACK, '        sta $3000\n' + STACK, '3000, the strobe'),
    ('a small stack', STACK, '        ldx #$03\n        txs\n', 'S is set at a reset alone'),
    ('a push before TXS', STACK, '        pha\n' + STACK, 'a reset begins with LDX #$FF, TXS'),
    ('a call before TXS', STACK, '        jsr serve\n' + STACK, 'before it come loads and stores'),
    ('a call by a mirror of the ROM', *beyond('jsr $E943'), 'no instruction of the game'),
    ('an NMI that jumps to the reset', *in_nmi('jmp reset'), 'the NMI jumps to the reset'),
    ('an NMI that leaves a byte on the stack', *in_nmi('pha\n        inc beats'),
     'RTI with 1 byte more'),
    ('an NMI that pulls what it did not push', *in_nmi('pla\n        inc beats'), 'not pushed'),
    ('an NMI of 802 instructions',
     *in_nmi('.repeat 800\n        nop\n.endrepeat\n        inc beats'),
     'more than 801'),
    ('an NMI that pushes 30 bytes',
     *in_nmi('.repeat 30\n        php\n.endrepeat\n.repeat 30\n        plp\n.endrepeat\n'
             '        inc beats'), 'may push 30'),
    ('a PHP that no PLP follows', *beyond('php'), '1 byte more on the stack'),
    ('a jump to the driver from the program', '        jmp picture\n', '        jmp dvg_run\n',
     'from level main'),
    # Correct on a board, and refused with what to write in their place
    ('an array that begins behind 0300', *beyond('sta $0301,x'), 'begin at 0300 or before'),
    ('a branch that is always taken, before data',
     FLIES, 'flies:  clv\n        bvc flown\n        .byte $02\nflown:  rts',
     'Write JMP for a branch that is always taken'),
    ('a text behind a JSR', FLIES,
     'flies:  jsr shows\n        .byte $02, $03\nshows:  pla\n        pla\n        rts',
     'gets the address of a text in A and X'),
    ('the watchdog at its next address', *beyond('sta $3401'), 'written by its name, as WATCHDOG'),
    ('the watchdog at its mirror', *beyond('sta $B400'), 'takes for 3400: write that one, by its'),
    ('a reset vector with A15', 'nmi, reset, irq', 'nmi, reset + $8000, irq',
     'let its vector be 6'),
    ('a JMP before TXS', STACK, '        jmp begins\nbegins:\n' + STACK,
     'before it come loads and stores alone'),
    ('a loop before TXS', STACK, 'wiped:  dex\n        bne wiped\n' + STACK,
     'before it come loads and stores alone'),
    ('SEI between LDX and TXS', STACK, '        ldx #$FF\n        sei\n        txs\n',
     'LDX #$FF, TXS behind one another'),
    ('a test of the vector RAM before TXS', STACK, '        sta $4000\n' + STACK,
     'if this is a memory test, remove it'),
    ('a loop that pushes', FLIES, 'flies:  pha\n        bne flies\n        rts', 'on the stack'),
]

"""Faults of what a program offers and puts, planted in programs of examples/: of each the program,
its source, the edits, what it is, and of what `make proof` says the status and words of a line."""

BAT = 'bat', 'game.s'
FIRST = 'first', 'first.s'
DRAW = 'draw:   jsr dvg_open\n        draw_at wall_x, wall_y, wall\n'
OFFER = '        jsr dvg_offer       ; takes the frame\n'
LISTS = '        ldx tables_high,y\n        lda tables_low,y\n'
CODE = '.segment "CODE"\nreset:'
SCORED = '''        ldy score
        {}
        lda letters_high,y
        ora #$C0
        tax
        lda letters_low,y
        jsr dvg_put
past:
'''
EITHER = '''        lda #<($C000 | bat)
        ldx #>($C000 | bat)
        bit IN_FIRE
        bmi both
        lda #<($C000 | ball)
        ldx #>($C000 | ball)
{}
'''
OWN = CODE, '.segment "DATA"\n.scope own\nwalk_0: .word {}\n.endscope\n' + CODE
BY_OWN = LISTS + '        lda #<own::walk_0\n        ldx #>own::walk_0\n'


def put(word):
    """Puts a word into the bat's picture."""
    return DRAW, f'{DRAW}        lda #<({word})\n        ldx #>({word})\n        jsr dvg_put\n'


def offer(low, high):
    """Offers a table before the bat's picture is drawn."""
    return 'draw:   jsr dvg_open', '\n        '.join(
        ['draw:   ' + low, high, 'jsr dvg_offer', 'jsr dvg_open'])


CONTENTS = [
    (*BAT, [put('$1234')], 'a vector of one word', 3, 'it puts 1234'),
    (*BAT, [put('bat')], 'the place of a shape without the opcode of a call', 3, 'it puts 0A'),
    (*BAT, [put('$C123')], 'a call into the frame', 3, 'it puts C123'),
    (*BAT, [put('$C000 | bat + 1')], 'a call amid a shape', 0, 'which calls no shape'),
    (*BAT, [put('$E201')], 'a jump into the other half', 3, 'it puts E201'),
    (*BAT, [put('$F400')], 'a short vector whose zero has a sign', 3, 'it puts F400'),
    (*BAT, [put('$F0F1')], 'a short vector', 0, '46 words checked'),
    (*BAT, [(DRAW, DRAW + '        ldx letters_high,y\n        jsr dvg_put\n')],
     'a shape by an index that is not looked at', 3, "what it puts isn't seen"),
    (*BAT, [(DRAW, DRAW + '        jsr dvg_pair\n')], 'two words', 3, "isn't seen"),
    (*BAT, [(DRAW, DRAW + SCORED.format('cpy #10\n        bcs past'))],
     'a digit, by CPY and BCS', 0, 'each is a table or a shape'),
    (*BAT, [(DRAW, DRAW + SCORED.format('tya\n        and #7\n        tay'))],
     'a digit, by AND and TAY', 0, 'each is a table or a shape'),
    (*BAT, [(DRAW, DRAW + SCORED.format('cpy #10\n        bcc *+5\n        jmp past'))],
     'a digit, by CPY and BCC', 3, 'it puts '),
    (*BAT, [(DRAW, DRAW + '''        ldx score
        cpx #10
        bcs past
        lda letters_low,x
        ldx #$C8
        jsr dvg_put
past:
''')], 'a digit, by CPX', 3, "isn't seen"),
    (*BAT, [(DRAW, DRAW + EITHER.format('both:   jsr dvg_put'))],
     'one of two constants', 3, "isn't seen"),
    (*BAT, [(DRAW, DRAW + EITHER.format('        jsr dvg_put\nboth:'))],
     'a constant, or none', 0, 'each is a table or a shape'),
    (*BAT, [(DRAW, DRAW + '''        lda #<($C000 | bat)
        pha
        ldx #>($C000 | bat)
        pla
        jsr dvg_put
''')], 'PHA and PLA between', 3, "isn't seen"),
    (*BAT, [('        ldx #$FF\n', '        sta $00,x\n        ldx #$FF\n')],
     'STA 0,X before TXS', 0, 'each is a table or a shape'),
    (*BAT, [offer('lda #<title', 'ldx #>title')],
     'a text for a table', 3, 'where no table stands'),
    (*BAT, [offer('lda #0', 'ldx #2')],
     'a table in the RAM', 3, 'it offers 0200'),
    (*FIRST, [(LISTS, BY_OWN), (OWN[0], OWN[1].format('3, $A190, $0190, $E201'))],
     'a table of its own, by the name of another one', 3, 'where no table stands'),
    (*FIRST, [(LISTS, BY_OWN), (OWN[0], OWN[1].format(
        '600, $A190, $1190, $C800, $A17C, $212C, $C815, $B000'))],
     'a table with a wrong count', 3, 'where no table stands'),
    (*FIRST, [(LISTS, BY_OWN), (OWN[0], OWN[1].format(
        '7, $A190, $1190, $C800, $A17C, $212C, $C815, $B000'))],
     'the bytes of a table, once more', 0, '1 tables checked'),
    (*FIRST, [('cpy #tables_high - tables_low', 'cpy #tables_high - tables_low + 1')],
     'a number of a table that is one too large', 3, 'where no table stands'),
    (*FIRST, [('bcs again', 'bcc again')], 'the wrong branch', 3, 'where no table stands'),
    (*FIRST, [('        bcs again\n', '')],
     'a number that is not looked at', 3, 'where no table stands'),
    (*FIRST, [(LISTS, LISTS.replace('\n', '\n        iny\n', 1))],
     'the low byte of the next table', 3, "isn't seen"),
    (*FIRST, [(OFFER, 'here:' + OFFER[5:]),
              ('again:  lda #0\n', 'again:  bmi here\n        lda #0\n')],
     'a jump between the loads and the call', 3, "isn't seen"),
    (*FIRST, [(OFFER, '        lda #0\n' + OFFER)], 'a low byte that is lost',
     3, 'where no table stands'),
    (*FIRST, [(OFFER, '        adc #2\n' + OFFER)], 'a sum', 3, "isn't seen"),
    ('asteroid_game', 'game.s', [('cpy #SHAPE_FLAME + 16', 'cpy #SHAPE_FLAME + 17')],
     'a list that is read beyond its end', 3, 'which is no call of a shape'),
]

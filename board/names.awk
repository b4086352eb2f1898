# Refuses names that the assembler takes for a register or an instruction: of shapes, as
# `dvg lay --equates` writes them, and of tables, as `dvg lay --table` does. Each is named on
# standard error, and the status is 1.
BEGIN {
    text = "a x y adc and asl bcc bcs beq bit bmi bne bpl brk bvc bvs clc cld cli clv cmp cpx " \
        "cpy dec dex dey eor inc inx iny jmp jsr lda ldx ldy lsr nop ora pha php pla plp rol ror " \
        "rti rts sbc sec sed sei sta stx sty tax tay tsx txa txs tya"
    split(text, words, " ")
    for (i in words) taken[words[i]]
}

/^[A-Za-z_][A-Za-z_0-9]*( = |:$)/ {
    name = $1
    sub(/:$/, "", name)
    if (tolower(name) in taken) {
        print "no name for a shape or a table: " name ", which is the assembler's own" | "cat 1>&2"
        refused = 1
    }
}

END { exit refused }

# Says below a message of ld65 what an author does about it, once of each kind:
#
#     awk -f linked.awk MESSAGES

function hint(text) {
    if (!(text in told)) print "make: " text
    told[text]
}

{ print }

/with type '(zp|bss)' contains initialized data/ {
    hint("a variable has no value at first: .res reserves it, and the program sets it after each " \
        "reset. What never changes stands in .segment \"DATA\"")
}

/Missing memory area assignment for segment/ {
    hint("the segments are ZEROPAGE and BSS for variables, CODE, DATA for what never changes, " \
        "and VECTORS")
}

/overflows memory area 'PROG'/ {
    hint("the program, with its tables and lists, has 6,144 bytes")
}

/overflows memory area 'RAM'/ {
    hint("the variables of BSS have pages 2 and 3 of the RAM, 512 bytes")
}

/overflows memory area 'ZP'/ {
    hint("the zero page has 223 bytes beside the driver's: put other variables into BSS")
}

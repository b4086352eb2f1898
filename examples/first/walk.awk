# Writes twenty frames, in which the tree walks by.
BEGIN {
    for (n = 0; n < 20; n++) {
        print ".frame walk_" n
        print "  labs 400 400 1"
        print "  callrom house"
        print "  labs " 300 + 20 * n " 380 2"
        print "  callrom tree"
        print "  halt"
    }
}

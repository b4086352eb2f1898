# Writes the shapes of the test picture: its border with a grid, a bar of each intensity, and a bar
# of each scale, each twice as long as the one above it.
function line(scale, dx, dy, z) { print "  vctr " scale " " dx " " dy " " z }

BEGIN {
    print ".rom"
    print "grid:"                   # from the left bottom; 1,022 by 766 units
    line(9, 1022, 0, 9)
    line(9, 0, 766, 9)
    line(9, -1022, 0, 9)
    line(9, 0, -766, 9)
    line(8, 682, 0, 0)              # a third further
    line(9, 0, 766, 4)
    line(8, 682, 0, 0)
    line(9, 0, -766, 4)
    line(8, 680, 766, 0)            # the right side's middle
    line(9, -1022, 0, 4)
    print "  return"
    print "intensities:"
    for (z = 1; z < 16; z++) {
        line(6, 0, 512, z)
        line(6, 240, -512, 0)
    }
    print "  return"
    print "scales:"
    for (scale = 0; scale < 10; scale++) {
        line(scale, 1023, 0, 9)
        line(scale, -1023, 0, 0)
        line(4, 0, -512, 0)
    }
    print "  return"
}

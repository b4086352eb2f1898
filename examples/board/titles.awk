# Writes 16 title pictures. Their letters are a part of each frame, which calls them twice, once
# half as large.
function write(turn) {
    print ".frame title_" turn
    print "labs 340 500 0"
    print "call letters"
    print "labs 420 300 15"
    print "call letters"
    print "labs 512 720 1"
    print "callrom ship_" turn
    print "labs 256 720 0"
    print "callrom ship_" (16 - turn) % 16
    print "labs 768 720 0"
    print "callrom ship_" (16 - turn) % 16
    print "labs 200 200 0"
    print "vctr 9 624 0 5"
    print "vctr 9 0 600 5"
    print "vctr 9 -624 0 5"
    print "vctr 9 0 -600 5"
    print "halt"
    print "letters: 0,120 60,120 90,90 90,30 60,0 0,0"
    print "    @130,120 170,0 210,120"
    print "    @340,120 260,120 260,0 340,0 340,60 300,60"
}

BEGIN { for (turn = 0; turn < 16; turn++) write(turn) }

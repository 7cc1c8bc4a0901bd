# Writes a session in which 2,032 steps are held along X while paused, to and fro: awk -v rounds=1000 -v resumed=1 -f bench/resumes.awk
# With resumed=1 each round ends in a resume, which sends them; with resumed=0 it does not, and the next round brings them back.
BEGIN {
    for (round = 0; round < rounds; round++) {
        sign = round % 2 ? "-" : ""
        print "B\t13"
        for (k = 0; k < 31; k++) print "M\t" sign "64\t0"
        print "M\t" sign "48\t0"
        if (resumed) print "B\t11"
    }
}

# Writes a session such as a studio's machine sees: awk -v lines=100000 -f bench/studio.awk
# Of its events and commands 30 % are small motion, 25 % keys, 20 % ticks, 8 % buttons, 3 % sticks, and the rest are
# host commands.

# Lehmer's generator, written out since each awk has another rand: the session is the same everywhere.
function below(bound) {
    seed = seed * 16807 % 2147483647
    return int(seed / 2147483647 * bound)
}

function line(text) {
    if (lines-- > 0) print text
}

function command(text,    count, bytes, i) {
    count = split(text, bytes, " ")
    for (i = 1; i <= count; i++) line("B\t" bytes[i])
}

BEGIN {
    seed = 7
    commands = split("0B 02 02,0C 01 01,1C,16,13,11,88,8B,08,09 01 3F 00 C7,0D,07 00,12,14", texts, ",")
    positions = split("0 1 2 4 8", position, " ")
    while (lines > 0) {
        kind = below(100)
        if (kind < 30) line("M\t" below(19) - 9 "\t" below(19) - 9)
        else if (kind < 55) line(sprintf("K\t%02X\t%d", 1 + below(114), below(2)))
        else if (kind < 75) line("T")
        else if (kind < 80) line("L\t" below(2))
        else if (kind < 83) line("R\t" below(2))
        else if (kind < 86) line("S\t" below(2) "\t" position[1 + below(positions)] "\t" below(2))
        else command(texts[1 + below(commands)])
    }
}

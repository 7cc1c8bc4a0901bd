# Part of tests/run: the table of a page for users is the example that it goes through, or what a program says.
# A row has what comes (host bytes, or an event) and the bytes that come back, with the last byte, or `-`; a refusal would be
# its number in parentheses.

rows() { awk '/^\| ([0-9A-F][0-9A-F]|[A-Z]) /' "$1"; } # page

is_example() { # page, example
    local page=$1 example=examples/$2
    rows "$page" | awk -F ' *[|] *' '
        { words = split($2, word, " ") }
        word[1] ~ /^[0-9A-F][0-9A-F]$/ { for (i = 1; i <= words; i++) print "B\t" word[i]; next }
        { gsub(" ", "\t", $2); print $2 }' | cmp - "$example.txt"
    count "$page sends what the example sends" $?

    rows "$page" | awk -F ' *[|] *' '
        { words = split($2, word, " "); gsub(" ", "", $3) }
        word[1] ~ /^[0-9A-F][0-9A-F]$/ { for (i = 1; i < words; i++) print "-" }
        { print $3 }' | cmp - <(tail -n +2 "$example.out" | awk '{ print $2 == 0 ? $3 : "(" $2 ")" }')
    count "$page shows what comes back" $?
}
is_example docs/SETTINGS.md save-and-put-back
is_example docs/GAMES.md fire-button

# docs/PACKETS.md: each first byte in a row of its table begins a packet of that kind and length, and one in no row begins none.
packets_of_page() { # what to print of each first byte: bytes, or rows
    awk -F ' *[|] *' -v what="$1" '
        function value(hex) { return 16 * (index(digits, substr(hex, 1, 1)) - 1) + index(digits, substr(hex, 2, 1)) - 1 }
        BEGIN { digits = "0123456789ABCDEF" }
        $2 ~ /^[0-9A-F][0-9A-F]([ ,]|$)/ && $4 ~ /^[1-9]$/ {
            parts = split($2, part, ", ")
            for (i = 1; i <= parts; i++) {
                last = value(substr(part[i], length(part[i]) - 1))
                for (byte = value(part[i]); byte <= last; byte++) { kind[byte] = $3; size[byte] = $4 }
            }
        }
        END {
            for (byte = 0; byte < 256; byte++) {
                bytes = sprintf("%02X", byte)
                for (i = 1; i < size[byte]; i++) bytes = bytes "FF"
                if (what == "rows") printf "%s\t", byte in kind ? kind[byte] : "no packet"
                print bytes
            }
        }' docs/PACKETS.md
}
packets_of_page bytes | timeout 60 crates/packets/out/packets | tail -n +2 | cmp - <(packets_of_page rows)
count "docs/PACKETS.md has the kind and length of every first byte" $?

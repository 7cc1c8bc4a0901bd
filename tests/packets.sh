# Part of tests/run: the program that cuts received bytes into packets. It uses functions and files of edges.sh.

# Long inputs of good and bad lines, what ikbd writes, and short strings; every list is the model's. A string has a run of
# its own: there are 50,000 made at random, 12 with each first byte, and the empty input.
compare_packets=(timeout 120 "$models/compare_packets" --seed 1)
said=$("${compare_packets[@]}" --packets crates/packets/out/packets --ikbd crates/ikbd/out/ikbd --strings 50000 --bytes 200000)
status=$?
[ "$status" -ne 124 ] || said="compare_packets did not end in 120 seconds"
printf '%s\n' "$said"
[[ $said =~ ^([0-9]+)\ runs\ of\ one\ string\ each,\ ([0-9]+)\ bytes\ of\ output\ and\ ([0-9]+)\ lines\ agree ]] &&
    [ "${BASH_REMATCH[1]}" -eq $((50000 + 12 * 256 + 1)) ] && [ "${BASH_REMATCH[2]}" -ge 200000 ] &&
    [ "${BASH_REMATCH[3]}" -ge 50000 ] && [ "$status" -eq 0 ]
count "packets and the model cut 50,000 strings, 200,000 bytes that ikbd writes and 50,000 lines alike" $?
# It finds the model's next wrong variants. Its first part, long lines, finds each; the others must find those that they
# can: strings have no bad line and no long one, and what ikbd writes outside the monitoring modes has packets alone, and
# none that lies across lines.
packets_differ() { # where, our program, ikbd, more words for compare_packets
    local said
    said=$("${compare_packets[@]}" --packets "$2" --ikbd "$3" --strings 200 --bytes 5000 "${@:4}")
    [ $? -eq 1 ] && [[ $said == "packets differ: $1"* ]]
}
# What the report of a part begins with.
declare -A where=([strings]="strings" [sessions]="what ikbd writes")
found_by_packets() { # what is wrong, the parts that find it
    local part ours
    wrong=$((wrong + 1))
    ours="env MODEL_WRONG=$wrong $models/model_packets"
    packets_differ "" "$ours" crates/ikbd/out/ikbd --strings 10000
    count "a wrong model is found out by its packets: $1" $?
    for part in "${@:2}"; do
        packets_differ "${where[$part]}" "$ours" crates/ikbd/out/ikbd --part "$part"
        count "a wrong model is found out by $part alone: $1" $?
    done
}
found_by_packets "80 is a break" strings
found_by_packets "F3 is a break" strings
found_by_packets "a status reply has 7 bytes" strings sessions
found_by_packets "the time has 6 bytes" strings sessions
found_by_packets "FD has 2 bytes" strings sessions
found_by_packets "74 and 75 start no packet" strings sessions
found_by_packets "a bad line's bytes before its bad digit are taken"
found_by_packets "bytes that wait are dropped at a line's end" strings
found_by_packets "a byte that starts no packet drops what follows on its line" strings
found_by_packets "F0 is named a break alone" strings sessions
found_by_packets "a line of 32,768 bytes is read"
# What is cut as the model cuts it is held also against what fell due: here a reset's breaks are missing.
packets_differ "what is cut is not what fell due in a session" crates/packets/out/packets "env MODEL_WRONG=10 $models/model" \
    --part sessions
count "a wrong ikbd is found out by what fell due: a reset empties the map of keys" $?

"$models/model_packets" <crates/packets/stdin | cmp - crates/packets/stdout
count "crates/packets/stdout is the model's" $?

listed='packet\tbytes\n'
lists() { # NAME, input, output after the header
    printf -- "$2" | timeout 60 crates/packets/out/packets | cmp - <(printf -- "$listed$3")
    count "packets: $1" $?
}
lists "empty input gives the header alone" '' ''
lists "- gives no bytes" '-\n-\n1\t0\t-\n-' ''
lists "the last line may lack its line feed" '1E\n9E' 'make\t1E\nbreak\t9E\n'
lists "what ikbd prints for document 01's example" \
    'line\tanswer\tbytes\n1\t0\t1E\n2\t0\tF803FE\n3\t0\t-\n4\t0\t-\n5\t0\t9E\n' 'make\t1E\nmouse motion\tF803FE\nbreak\t9E\n'
lists "numbers before the bytes are of no account" '0\t9\t1E\n007\t44\t1F\n18446744073709551616\t0\t20' \
    'make\t1E\nmake\t1F\nmake\t20\n'
lists "makes and breaks, from the first to the last" '0172747581EFF1F2F4F5' \
    'make\t01\nmake\t72\nmake\t74\nmake\t75\nbreak\t81\nbreak\tEF\nbreak\tF1\nbreak\tF2\nbreak\tF4\nbreak\tF5\n'
lists "F0 is named as both its meanings" 'F0\n' 'version or break 70\tF0\n'
lists "after a reset every break is a packet of its own" 'F082F0F2' \
    'version or break 70\tF0\nbreak\t82\nversion or break 70\tF0\nbreak\tF2\n'
lists "every longer packet by its name" \
    'F6F6F6F6F6F6F6F6F7F7F7F7F7F7F8F8F8F9F9F9FAFAFAFBFBFBFCFCFCFCFCFCFCFDFDFDFEFEFFFF' \
    "$(printf '%s' 'status\tF6F6F6F6F6F6F6F6\nmouse position\tF7F7F7F7F7F7\nmouse motion\tF8F8F8\nmouse motion\tF9F9F9\n' \
        'mouse motion\tFAFAFA\nmouse motion\tFBFBFB\ntime\tFCFCFCFCFCFCFC\nboth sticks\tFDFDFD\nstick event\tFEFE\n' \
        'stick event\tFFFF\n')"
lists "a byte that starts no packet stands alone, and the next is cut" '00731E76777E7F809EF3FF00\n' \
    "$(printf '%s' 'no packet\t00\nno packet\t73\nmake\t1E\nno packet\t76\nno packet\t77\nno packet\t7E\nno packet\t7F\n' \
        'no packet\t80\nbreak\t9E\nno packet\tF3\nstick event\tFF00\n')"
lists "a packet that lies across lines, with others between" 'F6\n01\nline\tanswer\tbytes\n-\n1\t0\t02030405\n06079E' \
    'status\tF601020304050607\nbreak\t9E\n'
lists "a bad line between the bytes of a packet changes nothing" '1EFC\n9e\n010203\n040506 \n0405\n06' \
    'make\t1E\nbad line 2\t-\nbad line 4\t-\ntime\tFC010203040506\n'
lists "a good start of a bad line is not taken" '1E9E1e\n1\t0\t1E1\n1E\t\n1E' \
    'bad line 1\t-\nbad line 2\t-\nbad line 3\t-\nmake\t1E\n'
for few in F6 F6010203040506 F7 F701020304 F8 FB01 FC FC0102030405 FD FD01 FE FF; do
    lists "too few bytes at the end: $few" "1E\n$few" "make\t1E\ntoo few\t$few\n"
done
lists "too few bytes, a bad line and a line without bytes at the end" 'F8\n\n-\n' 'bad line 2\t-\ntoo few\tF8\n'

# Every kind of bad line, each with its number: no bytes, no hex, no pairs, other fields, no numbers, nearly a header.
bad=('' ' ' '\t' '\t\t' '\r' '\0' '--' '- ' ' -' '-\r' '-\0' '-1E' '1E-'
    1 1E9 1e aF G0 0G 0x1E '1E 9E' '1E,9E' ' 1E' '1E ' '1E\r' '1E\0' '\0001E' '1E\200' /0 :0 @0 '`0'
    '1E\t' '\t1E' '1\t1E' '1\t0\t' '\t0\t1E' '1\t\t1E' '1\t0\t1E\t' '1\t0\t1E\t1E' '1\t0\t\t1E'
    '-1\t0\t1E' '1\t-1\t1E' '+1\t0\t1E' '1A\t0\t1E' '1\tA\t1E' '1 \t0\t1E' '1\t 0\t1E' '1\t0\t 1E' '1\t0\t1e' '1\t0\t1'
    '1\t0\t--' '1\t0\t1E\r' '-\t-\t-'
    line 'line\tanswer' 'line\tanswer\t' 'line\tanswer\tbytes\t' 'line\tanswer\tbytes\r' 'Line\tanswer\tbytes'
    'line answer bytes' 'line\tanswer\t1E' '1\t0\tbytes' 'packet\tbytes' 'make\t1E')
input= output= number=0
for line in "${bad[@]}"; do
    number=$((number + 1))
    input+="$line\n" output+="bad line $number\t-\n"
done
lists "each of ${#bad[@]} bad lines has its number" "$input" "$output"
lists "good lines and headers count as lines" 'line\tanswer\tbytes\n1\t0\t1E\n-\n9E\nx\nline\tanswer\tbytes\nx' \
    'make\t1E\nbreak\t9E\nbad line 5\t-\nbad line 7\t-\n'

# A line has at most 32,767 bytes: with two numbers before them, 32,762 digits. More are bad, in bytes and in numbers.
printf -v digits '%032762d' 0
printf -v zeros 'no packet\t00\n%.0s' {1..16381}
lists "a line of 32,767 bytes, and the same without a line feed" "10\t0\t$digits\n10\t0\t$digits" "$zeros$zeros"
printf -v full 'F0%.0s' {1..16383}
printf -v rows 'version or break 70\tF0\n%.0s' {1..16383}
lists "the most that one line gives: 16,383 times F0" "$full\n" "$rows"
lists "lines of 32,768, of 32,769 and of 65,524 bytes, and one of 32,768 without a line feed" \
    "F8\n100\t0\t$digits\n10\t0\t${digits}00\n$digits$digits\n1E9E\n${digits}000000" \
    'bad line 2\t-\nbad line 3\t-\nbad line 4\t-\nmouse motion\tF81E9E\nbad line 6\t-\n'
lists "a number of 32,762 digits, and of a digit more" "$digits\t0\t1E\n${digits}0\t0\t1E\n" 'make\t1E\nbad line 2\t-\n'

# The program and the model give the same for a file. Reads from a file come in whole blocks, those from a pipe do not.
as_model_lists() { timeout 60 crates/packets/out/packets <"$1" | cmp - <("$models/model_packets" <"$1"); }

for ((byte = 0; byte < 256; byte++)); do
    printf -v octal '\\%03o' "$byte"
    printf -- "$octal\n1$octal\n${octal}E\n1E$octal\n$octal\t0\t1E\n1\t$octal\t1E\n1\t0\t1$octal\n1${octal}0\t1E\n-$octal\n"
    printf '%02X\n' "$byte"
done >"$room/bytes"
as_model_lists "$room/bytes"
count "packets: every byte alone, as a digit, after a byte, as a number, between fields and in hex" $?

straddling 0 - 1E F60102 $'12\t0\tF80102' $'12\t0\t-' $'line\tanswer\tbytes' >"$room/straddling"
as_model_lists "$room/straddling"
count "packets: lines that lie across the end of a 64 KiB block at every offset" $?

status=0
for ((length = 65530; length <= 65540; length++)); do
    printf '%*s\n1EF81E' $((length - 7)) '' >"$room/good"
    printf '%*s' "$length" '' >"$room/bad"
    as_model_lists "$room/good" && as_model_lists "$room/bad" || status=1
done
count "packets: input that ends without a line feed at and about the end of a block, in a good line and in a bad one" $status

# The lines have more bytes than the program may have memory.
{
    printf 'F8\n'
    long_line
    printf '\n1E9E\n'
    long_line
} | timeout 60 bash -c 'ulimit -v 16384 && exec crates/packets/out/packets' |
    cmp - <(printf "${listed}bad line 2\t-\nmouse motion\tF81E9E\nbad line 4\t-\n")
count "packets: lines of 20 MB, with 16 MB of memory" $?

# At a terminal a packet is listed when the line is entered that makes it whole, and the bytes left over at the end.
lists_at_once() {
    local answer
    coproc { exec timeout 60 crates/packets/out/packets; }
    exec 5<&"${COPROC[0]}"
    # The header may come with the first packet.
    enters '1E\n' && next_listed $'packet\tbytes' && next_listed $'make\t1E' || return 1
    enters 'F801\n' && lists_nothing && enters '9' && lists_nothing && enters 'E\n' || return 1
    next_listed $'mouse motion\tF8019E' && enters 'x\n' && next_listed $'bad line 4\t-' || return 1
    enters '1F00F6\n' && next_listed $'make\t1F' && next_listed $'no packet\t00' && lists_nothing || return 1
    exec {COPROC[1]}>&-
    next_listed $'too few\tF6' && ! IFS= read -r -t 10 answer <&5
}
enters() { printf -- "$1" >&"${COPROC[1]}"; }
next_listed() { IFS= read -r -t 10 answer <&5 && [ "$answer" = "$1" ]; }
lists_nothing() { ! IFS= read -r -t 0.05 answer <&5; }
(lists_at_once)
count "packets: each packet is listed when the line is entered that makes it whole" $?

# What ikbd prints for the long session of edges.sh, with its header; bad lines stand among it where their numbers get a
# digit more, and behind it.
awk '{ print; number++ } number ~ /^9999(9|99)?$/ { print "x"; number++ } END { print "x" }' "$room/answers" >"$room/spoiled"
timeout 20 crates/packets/out/packets <"$room/spoiled" >"$room/list" &&
    cmp "$room/list" <("$models/model_packets" <"$room/spoiled") &&
    [ "$(grep '^bad' "$room/list")" = "$(printf 'bad line %d\t-\n' 10000 100000 1000000 2000005)" ]
count "packets: the answers to 2,000,000 lines with 4 bad lines, in less than 20 seconds" $?

timeout 60 crates/packets/out/packets </ | cmp - <(printf "$listed")
count "packets: a read that fails ends the input" $?
# The input does not end, so that only the failed write can end the program.
yes 1E | timeout 20 crates/packets/out/packets >/dev/full
[ "${PIPESTATUS[1]}" -eq 0 ]
count "packets: a write that fails ends the program" $?

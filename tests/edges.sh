# Part of tests/run: the edges of the text program.
header='line\tanswer\tbytes\n'

gives() { # NAME, input, output after the header
    printf "$2" | timeout 60 crates/ikbd/out/ikbd | cmp - <(printf "$header$3")
    count "$1" $?
}
gives "empty input gives the header alone" '' ''
gives "a line feed alone is a bad line" '\n' '1\t9\t-\n'
gives "the last line may lack its line feed" 'T\nK\t1E\t1' '1\t0\t-\n2\t0\t1E\n'
gives "a NUL byte makes a line bad" 'T\0\n\0\n\0T\nB\t1\0003\nT' '1\t9\t-\n2\t9\t-\n3\t9\t-\n4\t9\t-\n5\t0\t-\n'
gives "a carriage return makes a line bad" 'T\r\nK\t1E\t1\r\n\r\nK\t1E\t1' '1\t9\t-\n2\t9\t-\n3\t9\t-\n4\t0\t1E\n'
gives "questions are bad lines here" 'B\t13\nK\t1E\t1\n?\tqueue\n?\n?\tlook\n?\tclear\nB\t11' \
    '1\t0\t-\n2\t0\t-\n3\t9\t-\n4\t9\t-\n5\t9\t-\n6\t9\t-\n7\t0\t1E\n'

# The program and the model give the same for a file. Reads from a file come in whole blocks, those from a pipe do not.
as_model() { timeout 60 crates/ikbd/out/ikbd <"$1" | cmp - <("$models/model" <"$1"); }

for ((byte = 0; byte < 256; byte++)); do
    printf -v octal '\\%03o' "$byte"
    printf "$octal\nT$octal\nB\t${octal}3\nM\t$octal\t1\nK\t1E\t$octal\n"
done >"$room/bytes"
as_model "$room/bytes"
count "every byte alone, after T, as a digit, as a number and as a level" $?

# Every kind of line begins at each distance before a multiple of 65,536; a bad line fills up what lies between.
straddling() { # how many bytes stand before, lines
    local at=$1 line distance fill
    shift
    for line in "$@" 'none of the lines'; do
        for ((distance = 0; distance <= ${#line} + 1; distance++)); do
            fill=$(((2 * 65536 - at - distance - 1) % 65536))
            printf '%*s\n%s\n' "$fill" '' "$line"
            at=$(((at + fill + ${#line} + 2) % 65536))
        done
    done
}
kinds=(T $'B\t11' $'K\t1E\t1' $'L\t1' $'M\t-0064\t0064' $'S\t-0001\t-0015\t-0001' $'F\t1')
straddling 0 "${kinds[@]}" >"$room/straddling"
as_model "$room/straddling"
count "lines that lie across the end of a 64 KiB block at every offset" $?

status=0
for ((length = 65525; length <= 65545; length++)); do
    printf 'T\n%*s\nK\t1E\t1' $((length - 9)) '' >"$room/good"
    printf '%*s' "$length" '' >"$room/bad"
    as_model "$room/good" && as_model "$room/bad" || status=1
done
count "input that ends without a line feed at and about the end of a block, in a good line and in a bad one" $status

# The most that is ever due: a full queue, held motion of both axes as key strokes, and a reply.
{
    printf 'B\t0A\nB\t01\nB\t01\nB\t13\n'
    for ((key = 0; key < queue_room; key++)); do printf 'K\t1E\t1\n'; done
    for ((turn = 0; turn < held_limit / 64; turn++)); do printf 'M\t64\t64\n'; done
    printf 'M\t%d\t%d\nB\t88\n' $((held_limit % 64)) $((held_limit % 64))
} >"$room/most"
name="$(with_comma "$most_due") bytes in one line of output"
as_model "$room/most" && [ "$(crates/ikbd/out/ikbd <"$room/most" | tail -n 1 | wc -c)" -eq $((6 + 2 * most_due + 1)) ]
count "$name" $?

# The lines have more bytes than the program may have memory.
long_line() { head -c 20000000 /dev/zero | tr '\0' T; }
{
    long_line
    printf '\nK\t1E\t1\n'
    long_line
} | timeout 60 bash -c 'ulimit -v 16384 && exec crates/ikbd/out/ikbd' |
    cmp - <(printf "${header}1\t9\t-\n2\t0\t1E\n3\t9\t-\n")
count "lines of 20 MB, with 16 MB of memory" $?

# At a terminal the answer to a line must come before the next line is entered, and not before the line is whole.
answers_at_once() { # session, output
    local line half answer expected
    exec 3<"$1" 4<"$2"
    coproc { exec timeout 60 crates/ikbd/out/ikbd; }
    # The header may come with the first answer.
    IFS= read -r line <&3
    printf '%s\n' "$line" >&"${COPROC[1]}"
    next_answer && next_answer || return 1
    while IFS= read -r line <&3; do
        half=$((${#line} / 2))
        printf '%s' "${line:0:half}" >&"${COPROC[1]}"
        ! IFS= read -r -t 0.01 answer <&"${COPROC[0]}" || return 1
        printf '%s\n' "${line:half}" >&"${COPROC[1]}"
        next_answer || return 1
    done
}
next_answer() {
    IFS= read -r expected <&4
    IFS= read -r -t 10 answer <&"${COPROC[0]}" && [ "$answer" = "$expected" ]
}
(answers_at_once examples/save-and-put-back.txt examples/save-and-put-back.out)
count "each line is answered when it is entered" $?

"$models/generate" 1 2000000 >"$room/long"
timeout 20 crates/ikbd/out/ikbd <"$room/long" >"$room/answers" && cmp "$room/answers" <("$models/model" <"$room/long")
count "2,000,000 lines in one session, in less than 20 seconds" $?

timeout 60 crates/ikbd/out/ikbd </ | cmp - <(printf "$header")
count "a read that fails ends the input" $?
# The input does not end, so that only the failed write can end the program.
yes $'K\t1E\t1' | timeout 20 crates/ikbd/out/ikbd >/dev/full
[ "${PIPESTATUS[1]}" -eq 0 ]
count "a write that fails ends the program" $?

# Part of tests/run: the edges of the program that goes on from a saved line. It uses functions and files of edges.sh.

# Power-up's line, and the same with key 1E down, for printf.
printf -v no_key '%0114d' 0
one_key=${no_key:0:29}1${no_key:30}
line_with() { # the map
    printf '%s' '0\t0\t0\t0\t0\t0\t1\t1\t1\t1\t0\t1\t0\t0\t0\t0\t0\t0\t0\t0\t1\t0\t0\t0\t0\t0\t0\t0\t0\t0\t' \
        '0\t0\t0\t0\t0\t0\t0\t0\t0\t0\t1\t1\t0\t0\t0\t0\t0\t0\t0\t0\t0\t0\t0\t0\t0\t' "$1" '\t-\n'
}
power_up=$(line_with "$no_key")
key_down=$(line_with "$one_key")
taken='0\t0\t-\n'
refused='0\t5\t-\n'

resumes() { # NAME, input, output after the header
    printf -- "$2" | timeout 60 crates/resume/out/resume | cmp - <(printf -- "$header$3")
    count "resume: $1" $?
}
resumes "empty input is no saved line" '' "$refused$power_up"
resumes "- alone is power-up" '-' "$taken$power_up"
resumes "- with its line feed is power-up" '-\n' "$taken$power_up"
resumes "a session from power-up, its last line without a line feed" '-\nK\t1E\t1' "${taken}1\t0\t1E\n$key_down"
resumes "a saved line alone comes back" "$key_down" "$taken$key_down"
resumes "a session from a saved line" "${key_down}B\t80\nB\t01\n" "${taken}1\t0\t-\n2\t0\tF09E\n$key_down"
resumes "a saved line without its line feed is refused" "${key_down%'\n'}" "$refused$power_up"
resumes "a line feed alone is refused" '\nK\t1E\t1\n' "${refused}1\t0\t1E\n$key_down"
resumes "a second line feed is a bad line" "$key_down\nK\t1E\t1\n" "${taken}1\t9\t-\n2\t0\t1E\n$key_down"
resumes "a carriage return makes the first line another" "${key_down%'\n'}\r\nK\t1E\t1\n" "${refused}1\t0\t1E\n$key_down"
resumes "- and a carriage return are refused" '-\r\nK\t1E\t1\n' "${refused}1\t0\t1E\n$key_down"
resumes "- and a tab are refused" '-\t\n' "$refused$power_up"
resumes "a NUL byte alone is refused" '\0' "$refused$power_up"
resumes "a NUL byte makes the first line another" "\0$key_down" "$refused$power_up"
resumes "a NUL byte after the line feed is a bad line" "$key_down\0\n" "${taken}1\t9\t-\n$key_down"
resumes "questions and heads are bad lines here" '-\n?\tsave\n?\tload\t-\n=\t5\nK\t1E\t1\n' \
    "${taken}1\t9\t-\n2\t9\t-\n3\t9\t-\n4\t0\t1E\n$key_down"
resumes "a saved line is a bad line of a session" "-\n${key_down}K\t1E\t1\n" "${taken}1\t9\t-\n2\t0\t1E\n$key_down"

# The program and the model give the same for a file.
as_model_resumes() { timeout 60 crates/resume/out/resume <"$1" | cmp - <("$models/model_resume" <"$1"); }

status=0
for ((byte = 0; byte < 256; byte++)); do
    printf -v octal '\\%03o' "$byte"
    printf -- "-$octal\nT\n$octal\n" >"$room/first"
    as_model_resumes "$room/first" || status=1
done
count "resume: every byte after - and as a line" $status

# A first line that ends at and about the end of a block, with its line feed and without.
status=0
for ((length = 65525; length <= 65545; length++)); do
    printf '%*s\nK\t1E\t1\n' "$length" '' >"$room/good"
    printf '%*s' "$length" '' >"$room/bad"
    as_model_resumes "$room/good" && as_model_resumes "$room/bad" || status=1
done
count "resume: a first line that ends at and about the end of a block" $status

# The session after a first line of each length lies across the end of a block as in edges.sh.
status=0
for first in '-\n' "$power_up" "$key_down" '\n'; do
    printf -- "$first" >"$room/first"
    { cat "$room/first" && straddling "$(wc -c <"$room/first")" "${kinds[@]}"; } >"$room/straddling"
    as_model_resumes "$room/straddling" || status=1
done
count "resume: lines that lie across the end of a 64 KiB block at every offset" $status

# A saved line that comes in two pieces, with some time between them.
printf -v line -- "$key_down"
status=0
for ((place = 1; place < ${#line}; place += place < ${#line} - 4 ? 6 : 1)); do
    {
        printf '%s' "${line:0:place}"
        IFS= read -r -t 0.005 answer <> <(:)
        printf '%sB\t80\nB\t01\n' "${line:place}"
    } | timeout 60 crates/resume/out/resume | cmp - <(printf "$header${taken}1\t0\t-\n2\t0\tF09E\n$key_down") || status=1
done
count "resume: a saved line that comes in two pieces" $status

# The first line has more bytes than the program may have memory.
{
    long_line
    printf '\nK\t1E\t1\n'
    long_line
} | timeout 60 bash -c 'ulimit -v 16384 && exec crates/resume/out/resume' |
    cmp - <(printf "$header${refused}1\t0\t1E\n2\t9\t-\n$key_down")
count "resume: a first line of 20 MB, with 16 MB of memory" $?
long_line | timeout 60 bash -c 'ulimit -v 16384 && exec crates/resume/out/resume' | cmp - <(printf "$header$refused$power_up")
count "resume: a first line of 20 MB without a line feed, with 16 MB of memory" $?

# At a terminal each line is answered when it is entered, the first too, and the saved line comes at the end.
resumes_at_once() { # saved line, session, output after the header and line 0
    local line half answer= expected
    coproc { exec timeout 60 crates/resume/out/resume; }
    exec 3<"$2" 4<"$3" 5<&"${COPROC[0]}"
    half=$((${#1} / 2))
    printf '%s' "${1:0:half}" >&"${COPROC[1]}"
    # The header may come before the first line.
    while IFS= read -r -t 0.05 answer <&5; do [ "$answer" = $'line\tanswer\tbytes' ] || return 1; done
    printf '%s\n' "${1:half}" >&"${COPROC[1]}"
    while IFS= read -r -t 10 answer <&5 && [ "$answer" = $'line\tanswer\tbytes' ]; do :; done
    [ "$answer" = $'0\t0\t-' ] || return 1
    while IFS= read -r line <&3; do
        printf '%s\n' "$line" >&"${COPROC[1]}"
        next_resumed || return 1
    done
    ! IFS= read -r -t 0.05 answer <&5 || return 1
    exec {COPROC[1]}>&-
    next_resumed
}
next_resumed() {
    IFS= read -r expected <&4
    IFS= read -r -t 10 answer <&5 && [ "$answer" = "$expected" ]
}
session=examples/save-and-put-back
{ printf '%s' "$line" && cat "$session.txt"; } >"$room/first"
"$models/model_resume" <"$room/first" | tail -n +3 >"$room/resumed"
(resumes_at_once "${line%$'\n'}" "$session.txt" "$room/resumed")
count "resume: each line is answered when it is entered, the first one too" $?

{ printf -- '-\n' && "$models/generate" 2 200000; } >"$room/first"
as_model_resumes "$room/first"
count "resume: 200,000 lines in one session" $?
timeout 60 crates/resume/out/resume </ | cmp - <(printf "$header$refused$power_up")
count "resume: a read that fails ends the input" $?
# The input does not end, so that only the failed write can end the program.
{ printf -- '-\n' && yes T; } | timeout 20 crates/resume/out/resume >/dev/full
[ "${PIPESTATUS[1]}" -eq 0 ]
count "resume: a write that fails ends the program" $?

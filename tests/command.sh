# Part of tests/run: the command ./ikbd. Everything is proved when these run, so that it has nothing to say of its own.

./ikbd examples/document.txt 2>"$room/said" | cmp - examples/document.out && [ ! -s "$room/said" ]
count "./ikbd FILE plays the session, and says nothing else" $?
./ikbd <examples/document.txt | cmp - examples/document.out
count "./ikbd plays what comes on standard input" $?
(cd docs && ../ikbd ../examples/document.txt) | cmp - examples/document.out
count "./ikbd from another folder" $?

# The saved line of a session's end, and going on from it.
{ printf -- '-\n' && cat examples/document.txt; } | "$models/model_resume" | tail -n 1 >"$room/line"
./ikbd save examples/document.txt 2>"$room/said" | cmp - "$room/line" && [ ! -s "$room/said" ]
count "./ikbd save FILE prints the model's saved line, and says nothing else" $?
{ printf -- '-\n' && cat examples/document.txt; } | crates/resume/out/resume | tail -n 1 | cmp - "$room/line"
count "./ikbd save prints the last line of resume" $?
./ikbd save <examples/document.txt | cmp - "$room/line"
count "./ikbd save plays what comes on standard input" $?
./ikbd save examples/saved-first.txt | cmp - examples/saved.line
count "examples/saved.line is saved by examples/saved-first.txt" $?
{ printf -- '-\n' && cat examples/saved-first.txt; } | "$models/model_resume" | tail -n 1 | cmp - examples/saved.line
count "examples/saved.line, by the model" $?
then=examples/saved-then
./ikbd resume examples/saved.line $then.txt 2>"$room/said" | cmp - $then.resumed && [ ! -s "$room/said" ]
count "./ikbd resume LINEFILE FILE goes on, and says nothing else: $then.resumed" $?
cat examples/saved.line $then.txt | "$models/model_resume" | cmp - $then.resumed
count "$then.resumed, by the model" $?
./ikbd resume examples/saved.line <$then.txt | cmp - $then.resumed
count "./ikbd resume LINEFILE plays what comes on standard input" $?
(cd docs && ../ikbd save ../examples/saved-first.txt >"$room/line" &&
    ../ikbd resume "$room/line" ../$then.txt) | cmp - $then.resumed
count "./ikbd save and resume from another folder" $?
./ikbd resume <(./ikbd save examples/saved-first.txt) $then.txt | cmp - $then.resumed
count "./ikbd resume reads its line from a pipe" $?
# Two sessions, one after the other, are the first with the second behind it.
cat examples/saved-first.txt $then.txt | ./ikbd | tail -n 7 | awk '{ print $2, $3 }' |
    cmp - <(tail -n +3 $then.resumed | head -n 7 | awk '{ print $2, $3 }')
count "a session that is saved and resumed gives the bytes of the whole" $?
./ikbd save <(cat examples/saved-first.txt $then.txt) | cmp - <(tail -n 1 $then.resumed)
count "./ikbd save of the whole prints the line that ./ikbd resume ends in" $?

# A line that no state writes: 5, and the session starts from power-up.
starts_anew() { # NAME, how many lines are said that name the file, the file's content for printf
    printf -- "$3" >"$room/line"
    ./ikbd resume "$room/line" $then.txt 2>"$room/said" >"$room/output" &&
        [ "$(wc -l <"$room/said")" -eq "$2" ] &&
        [ "$(grep -cF -- "$room/line is not one saved line" "$room/said")" -eq "$2" ] &&
        head -n -1 "$room/output" | cmp - <(printf 'line\tanswer\tbytes\n0\t5\t-\n' && tail -n +2 $then.out)
    count "./ikbd resume: $1" $?
}
saved=$(<examples/saved.line)
starts_anew "a line with a number out of range is answered with 5" 0 "${saved/319/65536}\n"
starts_anew "an empty line is answered with 5" 0 '\n'
starts_anew "a carriage return is answered with 5" 0 "$saved\r\n"
starts_anew "a line file without a line feed is answered with 5, and named" 1 "$saved"
starts_anew "an empty line file is answered with 5, and named" 1 ''
starts_anew "a line file of two lines is answered with 5, and named" 1 "$saved\n$saved\n"
starts_anew "a line file with a second line feed is answered with 5, and named" 1 "$saved\n\n"
starts_anew "a line file with a NUL byte is answered with 5, and named" 1 "$saved\n\0"
starts_anew "a line file with a NUL byte within is answered with 5, and named" 1 "1\0${saved:1}\n"
starts_anew "a line file of 100,000 bytes is answered with 5, and named" 1 "$(printf '%0100000d' 0)\n"

# What a session sends, cut into packets.
for list in examples/*.list; do
    timeout 60 ./ikbd "${list%.list}.txt" 2>"$room/said" | timeout 60 ./ikbd packets 2>>"$room/said" | cmp - "$list" &&
        [ ! -s "$room/said" ]
    count "./ikbd FILE | ./ikbd packets lists the packets, and says nothing else: $list" $?
    "$models/model" <"${list%.list}.txt" | "$models/model_packets" | cmp - "$list"
    count "$list, by the model" $?
done
(cd docs && ../ikbd packets ../examples/packets.out) | cmp - examples/packets.list
count "./ikbd packets FILE, from another folder" $?

printf -- '-\n' >"$room/line"
./ikbd resume "$room/line" $then.txt | head -n -1 |
    cmp - <(printf 'line\tanswer\tbytes\n0\t0\t-\n' && tail -n +2 $then.out)
count "./ikbd resume: - is power-up" $?

for word in --help -h; do
    ./ikbd "$word" </dev/null >"$room/output" 2>"$room/said" && [ ! -s "$room/said" ] &&
        grep -qF './ikbd [FILE]' "$room/output" && grep -qF './ikbd save [FILE]' "$room/output" &&
        grep -qF './ikbd resume LINEFILE [FILE]' "$room/output" && grep -qF './ikbd packets [FILE]' "$room/output"
    count "./ikbd $word names the four forms" $?
done
mkdir -p "$room/names"
for word in save resume packets; do
    cp examples/document.txt "$room/names/$word"
    (there=$PWD && cd "$room/names" && "$there/ikbd" "./$word") | cmp - examples/document.out
    count "./ikbd ./$word plays a file of that name" $?
done

# Fails, writes no session, and says why.
refuses() { # NAME, the word that it must say, command
    local name=$1 word=$2
    shift 2
    ! "$@" <examples/document.txt >"$room/output" 2>"$room/said" && [ ! -s "$room/output" ] &&
        grep -q -- "$word" "$room/said"
    count "$name" $?
}
refuses "./ikbd names a file that is not there" examples/none.txt ./ikbd examples/none.txt
refuses "./ikbd names a folder" examples ./ikbd examples
refuses "./ikbd takes one file" usage ./ikbd examples/document.txt examples/key.txt
refuses "./ikbd save names a file that is not there" examples/none.txt ./ikbd save examples/none.txt
refuses "./ikbd save names a folder" examples ./ikbd save examples
refuses "./ikbd save takes one file" usage ./ikbd save examples/document.txt examples/key.txt
refuses "./ikbd resume needs a line file" usage ./ikbd resume
refuses "./ikbd resume takes two files" usage ./ikbd resume examples/saved.line examples/document.txt examples/key.txt
refuses "./ikbd resume names a line file that is not there" examples/none.line \
    ./ikbd resume examples/none.line examples/document.txt
refuses "./ikbd resume names a folder" examples ./ikbd resume examples examples/document.txt
refuses "./ikbd resume names a session that is not there" examples/none.txt \
    ./ikbd resume examples/saved.line examples/none.txt
refuses "./ikbd packets names a file that is not there" examples/none.out ./ikbd packets examples/none.out
refuses "./ikbd packets names a folder" examples ./ikbd packets examples
refuses "./ikbd packets takes one file" usage ./ikbd packets examples/packets.out examples/key.out
refuses "./ikbd names rt where it is missing" "rt, the Rattle toolchain" env "PATH=$room/nowhere" "$BASH" ./ikbd

# Without standard input there is no session, and nothing hangs.
timeout 60 ./ikbd <&- | cmp - <(printf "$header")
count "./ikbd with standard input closed" $?
timeout 60 ./ikbd save <&- | cmp - <(printf -- "$power_up")
count "./ikbd save with standard input closed" $?
timeout 60 ./ikbd resume examples/saved.line <&- | tail -n 1 | cmp - examples/saved.line
count "./ikbd resume with standard input closed" $?
timeout 60 ./ikbd packets <&- | cmp - <(printf "$listed")
count "./ikbd packets with standard input closed" $?
printf -- - >"$room/minus"
timeout 60 ./ikbd resume "$room/minus" examples/key.txt >"$room/output" &&
    cmp <(head -n 2 "$room/output") <(printf "${header}0\t0\t-\n")
count "./ikbd resume takes a file with only a - as power-up" $?

# With a stand-in for rt, in a folder where nothing is proved yet. It is called as `rt run` in the program's folder, and
# for its version, which is nothing.
stand_in() { # what it does
    mkdir -p "$room/stand-in"
    printf '#!/bin/sh\n[ "$1" != version ] || exit 0\n%s\n' "$1" >"$room/stand-in/rt"
    chmod +x "$room/stand-in/rt"
}
nothing_proved() { # folder
    mkdir -p "$1/.ci" "$1/crates/ikbd" "$1/crates/resume" "$1/crates/packets"
    cp ikbd crates.txt "$1"
    cp .ci/sum "$1/.ci"
}
proves() { printf 'echo "crate %s: modules loaded=0 checked=9" >&2; echo "logic=%s functions=3" >&2\n' "$1" "$2"; }
builds() { printf 'mkdir -p out && cp "%s/crates/%s/out/%s" out\n' "$PWD" "$1" "$1"; } # program
nothing_proved "$room/fails"
stand_in "$(proves output proved; proves clock not-proved); exit 1"
refuses "./ikbd plays nothing where a proof fails" "clock is NOT PROVED" env "PATH=$room/stand-in:$PATH" "$room/fails/ikbd"
refuses "./ikbd save plays nothing where a proof fails" "clock is NOT PROVED" \
    env "PATH=$room/stand-in:$PATH" "$room/fails/ikbd" save
grep -q '^crate clock: ' "$room/fails/target/proved/resume.log"
count "./ikbd save keeps what rt says where a proof fails" $?
nothing_proved "$room/anew"
stand_in "$(proves output proved; builds ikbd)"
PATH=$room/stand-in:$PATH "$room/anew/ikbd" examples/document.txt 2>"$room/said" | cmp - examples/document.out &&
    [[ $(head -n 1 "$room/said") == *"4 minutes"* ]] && grep -q "output is proved" "$room/said"
count "./ikbd says at first how long it takes, and names each crate when it is proved" $?
stand_in "$(proves saved proved; builds resume)"
PATH=$room/stand-in:$PATH "$room/anew/ikbd" save examples/saved-first.txt 2>"$room/said" | cmp - examples/saved.line &&
    [[ $(head -n 1 "$room/said") == *"6 minutes"* ]] && grep -q "saved is proved" "$room/said"
count "./ikbd save says at first how long it takes, and names each crate when it is proved" $?
stand_in "$(proves listing proved; builds packets)"
PATH=$room/stand-in:$PATH "$room/anew/ikbd" packets examples/packets.out 2>"$room/said" | cmp - examples/packets.list &&
    [[ $(head -n 1 "$room/said") == *"5 minutes"* ]] && grep -q "listing is proved" "$room/said"
count "./ikbd packets says at first how long it takes, and names each crate when it is proved" $?
# A program is proved again where a file that it is made of has changed, or the program itself, and else it is not.
stand_in 'exit 1'
PATH=$room/stand-in:$PATH "$room/anew/ikbd" examples/document.txt 2>"$room/said" | cmp - examples/document.out &&
    [ ! -s "$room/said" ]
count "./ikbd proves nothing where nothing has changed" $?
mkdir -p "$room/anew/crates/output/src"
: >"$room/anew/crates/output/src/lib.rt"
refuses "./ikbd proves again where a crate below has changed" "not proved" env "PATH=$room/stand-in:$PATH" "$room/anew/ikbd"
stand_in "$(builds resume)"
PATH=$room/stand-in:$PATH "$room/anew/ikbd" save examples/saved-first.txt 2>/dev/null | cmp - examples/saved.line &&
    echo >>"$room/anew/crates/resume/out/resume"
stand_in 'exit 1'
refuses "./ikbd save proves again where the program is another" "not proved" \
    env "PATH=$room/stand-in:$PATH" "$room/anew/ikbd" save
# Two calls at once, where both programs have to be proved: a second proof that begins before the first has ended is
# written down.
nothing_proved "$room/two"
stand_in "mkdir ../../target/busy 2>/dev/null || : >../../target/both
[ -e ../../target/slow ] || { : >../../target/slow; sleep 6; }
program=\$(basename \"\$PWD\")
mkdir -p out && cp \"$PWD/crates/\$program/out/\$program\" out; rmdir ../../target/busy"
# The first proof takes longer than a call waits in silence; and more is sent than a pipe holds, so that the first program
# cannot end before the second reads.
for ((turn = 0; turn < 20000; turn++)); do printf 'K\t1E\t1\n'; done >"$room/keys"
: >"$room/said"
two_at_once() {
    local PATH=$room/stand-in:$PATH
    timeout 60 "$room/two/ikbd" "$room/keys" 2>>"$room/said" | timeout 60 "$room/two/ikbd" packets 2>>"$room/said" |
        cmp - <(printf 'packet\tbytes\n' && yes $'make\t1E' | head -n 20000)
}
two_at_once && [ ! -e "$room/two/target/both" ] && [ ! -e "$room/two/target/busy" ] &&
    grep -q "another call is proving" "$room/said"
count "./ikbd FILE | ./ikbd packets where both have to be proved: one after the other" $?
# A program that does not come to its end: an answer is no saved line.
saves_nothing() { # NAME, what the program does
    rm -rf "$room/ends" && nothing_proved "$room/ends" && mkdir -p "$room/ends/crates/resume/out"
    printf '#!/bin/sh\n%s\n' "$2" >"$room/ends/crates/resume/out/resume"
    chmod +x "$room/ends/crates/resume/out/resume"
    stand_in ':'
    refuses "./ikbd save prints no line where the program $1" "no line to save" \
        env "PATH=$room/stand-in:$PATH" "$room/ends/ikbd" save
}
saves_nothing "ends after an answer" 'printf "line\tanswer\tbytes\n0\t0\t-\n1\t0\t1E\n"'
saves_nothing "prints nothing" ':'
saves_nothing "fails" "'$PWD/crates/resume/out/resume'; exit 1"

# Part of tests/run: long moves (A6), by the text program. It uses functions and files of run.

# Every total of an axis, sent by a resume, by buttons and by motion: the packets are judged by the laws of the request,
# which know neither the model's controller nor its splitting, and by what the model prints.
long_moves=(timeout 60 "$models/long_moves" --ours)
said=$("${long_moves[@]}" crates/ikbd/out/ikbd)
status=$?
[ "$status" -ne 124 ] || said="long_moves did not end in 60 seconds"
printf '%s\n' "$said"
name="ikbd sends every total of an axis up to $(with_comma "$held_limit") either way in even packets, as the model does"
[[ $said == "64356 moves in 767650 packets; "* ]] && [ "$status" -eq 0 ]
count "$name" $?

# The model's next wrong variants are found by a comparison, by the laws, by what the model prints and by the stored
# sessions.
moves_differ() { # what is judged first, what the report says
    local said
    said=$("${long_moves[@]}" "env MODEL_WRONG=$wrong $models/model" --first "$1")
    [ $? -eq 1 ] && [[ $said == "long moves differ: X "*"$2"* ]]
}
found_by_long_moves() { # what is wrong, what sends the first move that is, the law that it breaks
    found_out "$1" crates/vectors/out/vectors "$models/model_vectors" --vectors
    moves_differ laws " sent by $2: $3"
    count "a wrong model is found out by the laws of long moves: $1" $?
    moves_differ model " sent by $2: the model gives something else"
    count "a wrong model is found out by the right model's long moves: $1" $?
    # A line with mouse packets is another.
    [ "$(MODEL_WRONG=$wrong "$models/model_vectors" <crates/vectors/stdin | diff crates/vectors/stdout - |
        grep -Ec $'^> [0-9]+\t0\t([0-9A-F]{2})*F[89AB]')" -gt 0 ]
    count "a wrong model is found out by the stored sessions: $1" $?
}
order="the parts of X stand in another order"
uneven="two parts of X differ by more than 1"
found_by_long_moves "divisions are rounded toward zero" "a resume" "$order"
found_by_long_moves "each packet carries what the next should" "a resume" "$order"
found_by_long_moves "the rest is in the last packet" "a resume" "$uneven"
found_by_long_moves "the first packets are full" "a resume" "$uneven"
found_by_long_moves "-128 takes two packets" "a resume" "15 packets are the fewest"
found_by_long_moves "the first packets of a button are full" "a button while paused" "$uneven"
found_by_long_moves "the first packets of a resume are full" "a resume" "$uneven"
found_by_long_moves "divisions are rounded up" "a resume" "$order"
found_by_long_moves "the first packets of motion are full" "motion" "$uneven"
found_by_long_moves "each axis is split alone" "a resume" "$uneven"

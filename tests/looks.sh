# Part of tests/run: the model's last wrong variants, about the panel's looks and clearings (A7). Each is found by a
# comparison and by the request's own stored sessions. That the programs give what the model does is compared elsewhere,
# with everything else.
read -r first last < <(awk '/^## / { first = $2; last = $4 } /^Request A7, / { print first, last }' docs/VECTORS.md)
[ -n "$last" ] || give_up "docs/VECTORS.md does not say which stored sessions are those of A7"
looks_of() { awk -v first="$first" -v last="$last" '/^=/ { session++ } session >= first && session <= last'; }
looks_of <crates/vectors/stdout >"$room/looks"
found_by_looks() { # what is wrong
    found_out "$1" crates/vectors/out/vectors "$models/model_vectors" --vectors
    [ "$(MODEL_WRONG=$wrong "$models/model_vectors" <crates/vectors/stdin | looks_of | diff "$room/looks" - |
        grep -c '^> ')" -gt 0 ]
    count "a wrong model is found out by the stored sessions of A7: $1" $?
}
# First those of the look,
for what in "a look clears the latches" "a look resumes, and the queue is written before its report" \
    "a look ends the pause, and the queue is lost" "a look makes port 0 a mouse" \
    "a look ends a half-received command" "a look drops held motion" "a look with the mouse off gives 7" \
    "a look with port 0 a joystick gives 7" "a look in a monitoring mode gives 7" "a look while paused gives 7" \
    "a look within a half-received command gives 7" "a look outside absolute mode gives six bytes" \
    "a look in keycode mode gives six bytes" "a look outside absolute mode gives 4 in a short buffer" \
    "five bytes are enough for a look" "a look needs seven bytes" "a look shows no latches"; do
    found_by_looks "$what"
done
# then those of the clearing,
for what in "the clearing works in absolute mode alone" "the clearing works with the mouse live alone" \
    "the clearing zeroes the coordinates" "the clearing ends a half-received command" \
    "the clearing drops held motion" "the clearing ends the pause, and the queue is lost" \
    "the clearing makes port 0 a mouse" "the clearing leaves the latches of releases" \
    "the clearing is refused with 4 where a report has no room"; do
    found_by_looks "$what"
done
# then those of 0x0D and the buttons,
for what in "0x0D refused with 4 clears the latches" "0x0D does not clear the latches" "0x0D clears before it looks" \
    "0x0D outside absolute mode sends a report" "a button's report that is written clears the latches" \
    "a button's report that is queued clears the latches" "0x0D leaves port 0 a joystick" "0x0D does not resume"; do
    found_by_looks "$what"
done
# and then more of each: a look that is refused with 4, motion held at a look, and buttons that find too little room.
for what in "a look refused with 4 drops held motion" "a look refused with 4 clears the latches" \
    "a look applies held motion" "a button refused with 4 sets its latch" "a button refused with 2 sets its latch" \
    "a button's report that fills the queue clears the latches"; do
    found_by_looks "$what"
done
[ "$wrong" -eq 110 ]
count "every wrong variant was tried" $?

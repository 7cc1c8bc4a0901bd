# Part of tests/run: the table of fields in docs/SAVED.md (fields.awk reads it) says what the code does.

: >"$room/wrong"
awk -v "expected=$room/expected" -f tests/fields.awk docs/SAVED.md >"$room/fields" &&
    timeout 60 crates/vectors/out/vectors <"$room/fields" | tail -n +2 >"$room/answers" &&
    awk -F '\t' -v "expected=$room/expected" '
        { getline line <expected; split(line, its) }
        $2 != its[1] || $3 != its[2] { print "docs/SAVED.md: " its[3] ": " $2 " and not " its[1]; wrong = 1 }
        END { exit wrong || NR < 3000 || (getline line <expected) }' "$room/answers" >"$room/wrong"
status=$?
head -n 5 "$room/wrong"
count "docs/SAVED.md: power-up's line, and what the code takes and refuses of every field" $status
awk -v show=example -f tests/fields.awk docs/SAVED.md | cmp - examples/saved.line &&
    grep -qxF -- "$(<examples/saved.line)" docs/SAVED.md
count "docs/SAVED.md names the fields of the example" $?

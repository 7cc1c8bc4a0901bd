# How .ci/run and the tests that it calls count: each check by its name, and the last line has the sums.
passed=0
failed=0

give_up() {
    echo "gate: $1"
    echo "0 passed, 1 failed"
    exit 1
}

# Every tool that the gate uses is looked for before the proofs, which take minutes.
for tool in rt cargo rustc awk basename bash cat chmod cmp cp cut diff env find flock grep head mkdir mktemp mv nproc rm \
    rmdir sha256sum sleep sort tail tee timeout touch tr wc xargs yes; do
    command -v "$tool" >/dev/null || give_up "$tool is needed and not installed"
done

room=$(mktemp -d) || give_up "no temporary folder can be made"
trap 'rm -rf "$room"' EXIT

count() {
    if [ "$2" -eq 0 ]; then
        passed=$((passed + 1))
        echo "gate: $1: passed"
    else
        failed=$((failed + 1))
        echo "gate: $1: FAILED"
    fi
}

# Runs a command that counts by itself, and adds the counts on its last line.
add_counts_of() {
    "$@" 2>&1 | tee "$room/log"
    local status=$?
    if [[ $(tail -n 1 "$room/log") =~ ^([0-9]+)\ passed,\ ([0-9]+)\ failed$ ]]; then
        passed=$((passed + BASH_REMATCH[1]))
        failed=$((failed + BASH_REMATCH[2]))
        [ "$status" -eq 0 ] || [ "${BASH_REMATCH[2]}" -gt 0 ] || count "$* ended with status $status" 1
    else
        count "$* ends in a count" 1
        status=1
    fi
    return "$status"
}

finish() {
    echo "$passed passed, $failed failed"
    [ "$failed" -eq 0 ]
}

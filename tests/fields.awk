# Reads the table of fields in docs/SAVED.md. With -v show=example it prints the line of the column "In the example".
# Else it writes a session for vectors, and to the file `expected` the answer to each of its lines, the bytes and what is
# tried: the line of power-up; then lines with a field at each end of its range and just outside, with the fields before
# it that the range depends on as they may be.

BEGIN { FS = " *[|] *" }

/^## / { inside = $0 == "## The fields" }

inside && /^\| [0-9]/ {
    many = split($2, number, /, | to /)
    last = number[many] + 0
    if (number[1] != count + 1) stop("fields are left out before " $2)
    if ($2 !~ / to / && many != last - count) stop("fields are left out in " $2)
    first = count + 1
    for (count = first; count <= last; count++) {
        up[count] = value_in($5, count - first + 1, last - first + 1)
        example[count] = value_in($6, count - first + 1, last - first + 1)
        read_range(count, $4)
    }
    count = last
}

END {
    if (stopped) exit 1
    if (count != 57) stop("there are " count " fields")
    if (show == "example") {
        print line_of(example, 57)
        exit
    }
    print "=\t1000"
    ask("save", 0, hex(line_of(up, 57)), "power-up")
    # In val the map and the queue are how many digits and bytes they have.
    up[56] = 114
    up[57] = 0
    for (field = 1; field <= 57; field++) walk(field, 1)
    for (field = 1; field <= 57; field++)
        for (k = 1; k <= cases[field]; k++)
            if (!((field, k) in met)) stop("no line has case " k " of field " field)
    for (i = 1; i <= named; i++)
        if (!(name[i] in taken)) stop("a condition asks for a value that never is: " name[i])
}

function stop(why) {
    print "docs/SAVED.md: " why >"/dev/stderr"
    stopped = 1
    exit 1
}

# The value of the field in this place of its row, of so many: one value stands for all.
function value_in(cell, place, places,    n, v) {
    n = split(cell, v, ", ")
    if (n != 1 && n != places) stop(cell " are not " places " values")
    return v[n == 1 ? 1 : place]
}

# A range's cases, each with its condition, and the fields that it depends on, directly or through those.
function read_range(f, cell,    n, part, k, at, m, rest) {
    cases[f] = split(cell, part, "; ")
    for (k = 1; k <= cases[f]; k++) {
        at = index(part[k], " if ")
        if (at) {
            range[f, k] = substr(part[k], 1, at - 1)
            condition[f, k] = substr(part[k], at + 4)
            name_values(condition[f, k])
        } else {
            if ((k > 1) != sub(/^else /, "", part[k]) || k < cases[f]) stop("field " f ": " part[k])
            range[f, k] = part[k]
        }
    }
    if ((f, cases[f]) in condition) stop("field " f " has no case for all else")
    for (rest = cell; match(rest, /#[0-9]+/); rest = substr(rest, RSTART + RLENGTH)) {
        n = substr(rest, RSTART + 1, RLENGTH - 1) + 0
        if (n >= f) stop("field " f " depends on " n)
        depends[f] = needs[f, n] = 1
        for (m = 1; m < n; m++) if ((n, m) in needs) needs[f, m] = 1
    }
}

# The values that a condition asks for: each must be met, or it says nothing.
function name_values(text,    n, part, i, word, values, k, end, j, ends) {
    n = split(text, part, ", ")
    for (i = 1; i <= n; i++) {
        split(part[i], word, " ")
        if (word[2] != "=") continue
        k = split(substr(part[i], length(word[1]) + 4), values, " or ")
        for (; k; k--) {
            ends = split(values[k], end, " to ")
            for (j = 1; j <= ends; j++) name[++named] = word[1] " = " end[j]
        }
    }
}

# A number, or what the ranges may say of a field before: #2, #14 - 1, 2^#38 - 1.
function bound(text,    word) {
    if (text ~ /^-?[0-9]+$/) return text + 0
    split(text, word, " ")
    if (text ~ /^#[0-9]+$/) return val[substr(text, 2) + 0]
    if (text ~ /^#[0-9]+ - [0-9]+$/) return val[substr(word[1], 2) + 0] - word[3]
    if (text ~ /^2\^#[0-9]+ - [0-9]+$/) return 2 ^ val[substr(word[1], 4) + 0] - word[3]
    stop("no bound: " text)
}

# The pieces of a range, from low[i] to high[i]: how many.
function pieces(text, low, high,    n, piece, i, end, ends) {
    n = split(text, piece, " or ")
    for (i = 1; i <= n; i++) {
        ends = split(piece[i], end, " to ")
        low[i] = bound(end[1])
        high[i] = bound(end[ends])
    }
    return n
}

function among(text, x,    n, low, high) {
    for (n = pieces(text, low, high); n; n--) if (low[n] <= x && x <= high[n]) return 1
    return 0
}

function holds(text,    n, part, i, word, x, w) {
    n = split(text, part, ", ")
    for (i = 1; i <= n; i++) {
        split(part[i], word, " ")
        x = val[substr(word[1], 2) + 0]
        w = 2
        if (word[2] == "mod") {
            x %= word[3]
            w = 4
        }
        if (word[w] == ">") {
            if (x <= word[w + 1] + 0) return 0
        } else if (word[w] == "=") {
            if (!among(substr(part[i], index(part[i], " = ") + 3), x)) return 0
        } else stop("no condition: " part[i])
    }
    return 1
}

# Which case of its range counts for a field, given those before it; and the range.
function case_of(f,    k) {
    for (k = 1; k < cases[f] && !holds(condition[f, k]); k++);
    return k
}
function range_of(f) { return range[f, case_of(f)] }

# Power-up's value, or the least where the range has not that.
function usual(f,    text, low, high) {
    if (!(f in depends)) return up[f]
    text = range_of(f)
    if (among(text, up[f])) return up[f]
    pieces(text, low, high)
    return low[1]
}

# Goes through what the fields from n on that field f depends on may be: all of a short piece, and of a long one its ends
# and its middle.
function walk(f, n,    pieces_n, low, high, i, x) {
    for (; n < f && !((f, n) in needs); n++) val[n] = usual(n)
    if (n == f) {
        try(f)
        return
    }
    pieces_n = pieces(range_of(n), low, high)
    for (i = 1; i <= pieces_n; i++)
        for (x = low[i]; x <= high[i]; x++) {
            if (x == low[i] + 5 && high[i] - x > 10) x = int((low[i] + high[i]) / 2)
            else if (x > low[i] + 5 && x < high[i] - 4 && high[i] - low[i] > 15) x = high[i] - 4
            taken["#" n " = " x] = 1
            val[n] = x
            walk(f, n + 1)
        }
}

# Field f at the ends of its range and one beyond; and whatever lies between, where the range has gaps.
function try(f,    n, low, high, i, x, text, done) {
    met[f, case_of(f)] = 1
    text = range_of(f)
    n = pieces(text, low, high)
    if (f > 55 && low[1] < 0) stop("field " f " has no digits or bytes less than none")
    if (n > 1)
        for (x = low[1] - 1; x <= high[n] + 1; x++) try_value(f, x, text, done)
    for (i = 1; i <= n; i++)
        for (x = -1; x <= 1; x++) {
            if (x <= 0) try_value(f, low[i] + x, text, done)
            if (x >= 0) try_value(f, high[i] + x, text, done)
        }
}

function try_value(f, x, text, done,    g) {
    if (x in done || (f > 55 && x < 0)) return
    done[x] = 1
    val[f] = x
    for (g = f + 1; g <= 57; g++) val[g] = usual(g)
    ask("load\t" hex(line_of(val, 55) "\t" times("0", val[56]) "\t" (val[57] ? times("1E", val[57]) : "-")),
        among(text, x) ? 0 : 5, "-", "field " f " as " x)
}

function ask(what, answer, bytes, tried) {
    print "?\t" what
    print answer "\t" bytes "\t" tried >expected
}

function line_of(v, n,    f, line) {
    line = v[1]
    for (f = 2; f <= n; f++) line = line "\t" (f == 56 ? map_of(v[f]) : v[f])
    return line
}

# 114 digits, 1 for the keys that the cell names.
function map_of(cell,    n, word, i, down, map) {
    n = split(cell, word, " ")
    for (i = 1; i <= n; i++) down[word[i]] = 1
    for (i = 1; i <= 114; i++) map = map ((i "") in down ? 1 : 0)
    return map
}

function times(text, n,    all) {
    for (; n > 0; n--) all = all text
    return all
}

# A line of digits, E, minus and tabs, and its line feed.
function hex(line) {
    gsub(/[0-9]/, "3&", line)
    gsub(/E/, "45", line)
    gsub(/-/, "2D", line)
    gsub(/\t/, "09", line)
    return line "0A"
}

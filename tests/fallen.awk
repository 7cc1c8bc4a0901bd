# What a check refused in the lemma files of a crate, crates/CRATE/proofs/FILE.antt, a line `FILE.NAME` for each: the
# declarations in which its log names an error, and those that mention one that is refused. Such a one is not checked
# (the log counts them, and names only the first three), so that nothing shows it. Fails where the log counts or names
# others in a file.
# usage: awk -v crate=CRATE -f tests/fallen.awk LOG crates/CRATE/proofs/*.antt, under LC_ALL=C
function binds(one, text, count, names, i) {
    count = split(text, names, /[^A-Za-z0-9_'\200-\377]+/)
    for (i = 1; i <= count; i++) bound[one, names[i]]
}
FNR == 1 {
    files++
    file = FILENAME
    sub(/.*\//, "", file)
    sub(/\.antt$/, "", file)
    declared = ""
    inner = 0
}
# The log.
files == 1 {
    if ($0 !~ /^(\.\/)?proofs\/[A-Za-z0-9_]+\.antt:[0-9]+:[0-9]+: error: /) next
    where = $0
    sub(/^(\.\/)?proofs\//, "", where)
    name = where
    sub(/\.antt:.*/, "", where)
    if (name ~ /: error: [0-9]+ declarations? that depends? on /) {
        sub(/.*: error: /, "", name)
        counted[where] += name
        sub(/.* not checked: /, "", name)
        sub(/ and [0-9]+ more$/, "", name)
        count = split(name, names, /, /)
        for (i = 1; i <= count; i++) {
            sub(/ .*/, "", names[i])
            named[where "." names[i]]
        }
        next
    }
    if (name !~ /: error: `/) next
    sub(/^[^`]*`/, "", name)
    sub(/`.*/, "", name)
    if (!((where "." name) in refused)) counted[where]++
    refused[where "." name]
    next
}
# A lemma file: what it imports of the others,
/^(pub )?use / {
    line = $0
    sub(/^(pub )?use /, "", line)
    if (index(line, "Rattle." crate ".proofs.") != 1) next
    sub(/^Rattle\.[a-z0-9_]+\.proofs\./, "", line)
    from = line
    sub(/[^A-Za-z0-9_].*/, "", from)
    if (line ~ / as /) { sub(/.* as /, "", line); module[file, line] = from; next }
    gsub(/^[^{]*\{|\}.*/, "", line)
    count = split(line, names, /, */)
    for (i = 1; i <= count; i++) place[file, names[i]] = from "." names[i]
    next
}
/^ *--/ || /^(pub )?mod / { next }
# and what each declaration, from its first line to the next one's, mentions. A clause begins with its name too. Those of
# a module with parameters stand two further in than it.
{
    sub(/ --.*/, "")
    line = $0
    if (line !~ /[^ ]/) next
    match(line, /[^ ]/)
    if (RSTART - 1 < inner) inner = RSTART - 1
    line = substr(line, inner + 1)
    if (line ~ /^module /) { inner += 2; declared = ""; next }
    if (line ~ /^[^ )}\]]/ && line !~ /^unfolding /) {
        while (sub(/^(pub|abbrev|unfoldable|data|record|open) /, "", line)) continue
        declared = line
        sub(/[ :].*/, "", declared)
        place[file, declared] = file "." declared
        of[file "." declared] = file
        line = substr(line, length(declared) + 1)
        # What a clause takes has a name of its own,
        if (line !~ /^ :/ && (i = index(line, " ="))) binds(file "." declared, substr(line, 1, i))
    }
    if (declared != "") said[file "." declared] = said[file "." declared] " " line
}
END {
    for (one in of) {
        # and so has what `let` and `λ` name: these hide a lemma.
        count = split(said[one], parts, / let /)
        for (i = 2; i <= count; i++) binds(one, substr(parts[i], 1, index(parts[i], " ")))
        count = split(said[one], parts, /λ/)
        for (i = 2; i <= count; i++) binds(one, substr(parts[i], 1, match(parts[i], /[:.]/)))
    }
    for (one in of) {
        count = split(said[one], words, /[^A-Za-z0-9_'.\200-\377]+/)
        for (i = 1; i <= count; i++) {
            many = split(words[i], part, /\./)
            if ((one, part[1]) in bound) continue
            if (many > 1 && (of[one], part[1]) in module) name = module[of[one], part[1]] "." part[2]
            else if ((of[one], part[1]) in place) name = place[of[one], part[1]]
            else continue
            if (name != one) mentions[one, name]
        }
    }
    do {
        more = 0
        for (pair in mentions) {
            split(pair, ends, SUBSEP)
            if (!(ends[1] in refused) && ends[2] in refused) { refused[ends[1]]; more = 1 }
        }
    } while (more)
    for (name in refused) {
        where = name
        sub(/\..*/, "", where)
        counted[where]--
        print name
    }
    for (where in counted) if (counted[where] != 0) differ = 1
    for (name in named) if (!(name in refused)) differ = 1
    exit differ
}

# Questions about saved lines: each state, given as the hex of its line, is loaded, and then a question comes `times`
# times: `load` of the same line, `refused N` load of N bytes that begin with 55 tabs, `save` or `lamp`.
function repeated(text, count,    all) {
    while (count-- > 0) all = all text
    return all
}
BEGIN { print "=\t8264" }
{
    line = "?\t" question
    if (question == "load") line = "?\tload\t" $0
    if (question ~ /^refused /) line = "?\tload\t" repeated("09", 55) repeated("37", substr(question, 9) - 55)
    print "?\tload\t" $0
    for (turn = 0; turn < times; turn++) print line
}

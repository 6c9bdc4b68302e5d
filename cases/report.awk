# Numbers the cases that cases/compare told, counts them by groups, and writes a report for JUnit into the file `junit`.
function escaped(text) {
    gsub(/&/, "\\&amp;", text); gsub(/</, "\\&lt;", text); gsub(/>/, "\\&gt;", text); gsub(/"/, "\\&quot;", text)
    gsub(/[^\t\n -~]/, "?", text)
    return text
}
# Ends the element of the case before.
function close_case() {
    if (open == "") { return }
    cases = cases "  <testcase classname=\"" escaped(group) "\" name=\"" escaped(open) "\""
    cases = cases (bad_one ? "><failure>" escaped(diagnostics) "</failure></testcase>\n" : "/>\n")
    open = ""
}
BEGIN { FS = "\t" }
FILENAME == groups { if ($1 != "group") { text[$1] = $2 } next }
/^(not )?ok - / {
    if (junit != "") { close_case() }
    count++
    bad_one = /^not/
    title = $0
    sub(/^(not )?ok - /, "", title)
    split(title, words, " ")
    open = words[1] " " words[2]
    diagnostics = $0
    group = words[1]
    if (!(group in all)) { order[++group_count] = group }
    all[group]++
    if (bad_one) { bad++; differ[group]++ }
    if (/ # not reached, /) { missed++ }
    sub(/ok - /, "ok " count " - ")
    print
    next
}
{ diagnostics = diagnostics "\n" $0; print }
END {
    print "1.." count + 0
    for (i = 1; i <= group_count; i++) {
        group_name = order[i]
        if (differ[group_name]) {
            print "# " group_name ": " differ[group_name] " of " all[group_name] " differ" \
                (group_name in text ? ": " text[group_name] : "")
        } else {
            print "# " group_name ": none of " all[group_name] " differs"
        }
    }
    if (missed) { print "# " missed " of them were not reached; --each runs one case a program" }
    print "# " count + 0 " cases, " bad + 0 " differ"
    if (junit != "") {
        close_case()
        printf "<?xml version=\"1.0\"?>\n<testsuite name=\"cases\" tests=\"%d\" failures=\"%d\">\n%s</testsuite>\n", \
            count, bad, cases >junit
    }
    exit bad > 0
}

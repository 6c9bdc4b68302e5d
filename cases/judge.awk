# Tells which cases of one program came out otherwise. Read by cases/compare, with the program, what is wanted and what was
# told. They go by titles, lines `# GROUP NUMBER`; a banner before the first is passed over. Of each case 100 lines are
# looked at: so many are wanted nowhere.
FNR == 1 { file++; title = "" }
file == 1 && /^[*]       / { note = substr($0, 9) }
file == 1 && /^        CASE[.][(]/ {
    split($0, parts, "'")
    notes[parts[2]] = note
    line[parts[2]] = FNR
}
file == 1 { next }
{ sub(/\r$/, "") }
/^# / && file == 2 {
    title = substr($0, 3)
    foreign = (notes[title] ~ /, not of the book$/)
    counted = (alone == "" || title == alone) && (only == "" || (only == "profile") == foreign)
    if (counted) { titles[++count] = title }
    next
}
/^# / {
    title = substr($0, 3)
    if (title in notes) { begun[title] = 1; latest = title }
    next
}
file == 2 { wanted[title] = wanted[title] "\n#   " $0; next }
++lines[title] <= 100 { told[title] = told[title] "\n#   " $0 }
END {
    for (i = 1; i <= count; i++) {
        title = titles[i]
        if (begun[title] && wanted[title] == told[title]) { print "ok - " title; continue }
        differ = 1
        if (begun[title]) {
            print "not ok - " title " (" name ".sno, status " status ")"
        } else {
            print "not ok - " title " # not reached, the program ended " (latest == "" ? "at once" : "after " latest) \
                " (status " status ")"
        }
        print "# " notes[title] " (" name ".sno, line " line[title] ")"
        if (begun[title]) { print "# wanted:" wanted[title] "\n# told:" told[title] }
    }
    exit differ
}

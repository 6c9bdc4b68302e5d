# Tells how far a build is by its log: which crate is proved, how many of its functions are, and for how long it goes on.
# Given are `crates`, all of them in order, and `seconds` since the build began.
BEGIN { count = split(crates, names); for (i = 1; i <= count; i++) { place[names[i]] = i } }
/^rt: waiting for another rt/ { waits = 1 }
/^proving / { crate = $2; functions = ""; waits = 0 }
/^so far: [0-9]+ of [0-9]+ functions/ { functions = ", " $3 " of " $5 " functions"; waits = 0 }
END {
    what = "beginning"
    if (waits) {
        what = "waiting for another rt to end"
    } else if (crate in place) {
        what = "proving " crate ", crate " place[crate] " of " count functions
    }
    print what ", " (seconds < 60 ? seconds " s" : int(seconds / 60) " min")
}

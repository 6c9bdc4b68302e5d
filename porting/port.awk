# The changes that porting/port makes, which gives the words PORT_.. of the environment. All is written once END was found.
#
# A card is a line with those that continue it. Of a card there are two texts of one length: `body`, which is written in the
# end, and `mask`, in which each byte of a literal is \001, and each of a line end, a continuation's sign or a comment a blank:
# what is looked for in the mask stands outside of them.

BEGIN {
    fold = ENVIRON["PORT_FOLD"]
    NAME = "[A-Za-z][A-Za-z0-9_.]*"
    CALL = NAME "[(]"
    # The name of a name, as a literal or behind a dot; one that takes a unit, and what may stand behind the unit.
    NAMED = "[ \t]*['\".]" NAME "['\"]?[ \t]*"
    FORMAT = "(,[ \t]*([0-9]+|'[^']*'|\"[^\"]*\")?[ \t]*)?"
    UNITS = "(OUTPUT[(]" NAMED ",[ \t]*6[ \t]*" FORMAT "|INPUT[(]" NAMED ",[ \t]*5[ \t]*" FORMAT ")[)]"
    ALIAS = "OPSYN[(]" NAMED "," NAMED "[)]"
    value["LCASE"] = "'abcdefghijklmnopqrstuvwxyz'"
    value["UCASE"] = "'ABCDEFGHIJKLMNOPQRSTUVWXYZ'"
    value["DIGITS"] = "'0123456789'"
    list("ARB BAL REM FAIL FENCE ABORT SUCCEED", patterns)
    for (name in patterns) { value[name] = name }
    list("ANCHOR TRIM STLIMIT STCOUNT STNO FNCLEVEL FULLSCAN MAXLNGTH ALPHABET", keyword)
    list("LEN POS RPOS TAB RTAB ANY NOTANY SPAN BREAK BREAKX ARBNO FENCE EQ NE LT LE GT GE IDENT DIFFER LGT INTEGER SIZE", language)
    list("TRIM DUPL REPLACE REMDR DATATYPE CONVERT ARRAY TABLE PROTOTYPE DEFINE DATA", language)
    list("ABEND CASE CODE DUMP ERRLIMIT FTRACE FULLSCAN GTRACE INPUT MAXLNGTH OUTPUT PROFILE STLIMIT TRACE", dropped)
    list("APPLY ARG BACKSPACE CLEAR CODE COLLECT DATE DETACH DUMP ENDFILE EVAL EXIT FIELD HOST INPUT LOAD LOCAL OPSYN", none)
    list("OUTPUT PROTECT REWIND SETEXIT STOPTR TIME TRACE UNLOAD VALUE", none)
    read_prelude()
    look_ahead()
    open_file(ENVIRON["PORT_FILE"])
    advance()
    while (more && !ended) { card() }
    if (!ended) { fault(2, ENVIRON["PORT_FILE"] " has no END") }
    write_input()
    write_program()
    exit 0
}

function list(words, set,   i, n, word) {
    n = split(words, word, " ")
    for (i = 1; i <= n; i++) { set[word[i]] }
}

function fault(status, text) {
    print "port: " text | "cat 1>&2"
    close("cat 1>&2")
    exit status
}

function tell(where, text) { told = told where ": " text "\n" }

# What is known of names before the first card: the functions to which OPSYN gives other names, the variables that stand for
# standard input and output, and what the program defines.

function look_ahead(   path, text) {
    path = ENVIRON["PORT_FILE"]
    while ((getline text < path) > 0) {
        if (fold) { text = toupper(text) }
        if (text ~ /^END([ \t]|$)/) { break }
        if (!is_skipped(text)) { look_at(text) }
    }
    close(path)
    for (text in predefined) { delete alias[text] }
}

function look_at(text,   rest, part, behind) {
    for (rest = text; match(rest, "(DEFINE|DATA)[(][ \t]*['\"]" NAME); rest = substr(rest, RSTART + RLENGTH)) {
        part = substr(rest, RSTART, RLENGTH)
        sub(/.*['"]/, "", part)
        predefined[part]
    }
    for (rest = text; match(rest, "[ \t]" ALIAS "[ \t]*(:|;|$)"); rest = substr(rest, behind)) {
        behind = RSTART + RLENGTH
        learn_alias(substr(rest, RSTART, RLENGTH))
    }
    if (text ~ "[ \t]" UNITS "[ \t]*(:|;|$)") { learn_unit(text) }
}

# An alias of a function that is there has a meaning before OPSYN, too.
function learn_alias(text,   names) {
    match(text, ALIAS)
    text = substr(text, RSTART + 6, RLENGTH - 7)
    gsub(/[ \t'"]/, "", text)
    sub(/^[.]/, "", text)
    sub(/,[.]/, ",", text)
    split(text, names, ",")
    if (names[1] in alias || names[1] in language || names[1] in supplied) { twice[names[1]] } else { alias[names[1]] = names[2] }
    if (names[1] in twice) { delete alias[names[1]] }
}

function learn_unit(text,   device) {
    match(text, UNITS)
    text = substr(text, RSTART, RLENGTH)
    device = text ~ /^O/ ? "OUTPUT" : "INPUT"
    match(text, "['\".]" NAME)
    unit[substr(text, RSTART + 1, RLENGTH - 1)] = device
}

# Lines, from PROGRAM and what it includes.

function open_file(path) {
    seen[path]
    file[++depth] = path
    lines_read[depth] = 0
}

# Sets `line` to the next line and `here_file`, `here_line` to where it stands, or `more` to 0.
function advance(   got) {
    for (more = 0; depth && !more;) {
        got = (getline line < file[depth])
        if (got < 0) { fault(3, "cannot read " file[depth] (depth > 1 ? ", which " file[depth - 1] " includes" : "")) }
        if (!got) { close(file[depth--]); continue }
        here_file = file[depth]
        here_line = ++lines_read[depth]
        if (sub(/\r$/, "", line) && !(here_file in dos)) { dos[here_file]; tell(here_file ":" here_line, "CR taken off the ends of lines") }
        if (!ended && toupper(line) ~ /^-(INCLUDE|COPY)[ \t]/) { include() } else { more = 1 }
    }
}

function include(   path, folder) {
    path = line
    sub(/^-[A-Za-z]+[ \t]+/, "", path)
    if (path ~ /^['"]/) { path = substr(path, 2, index(substr(path, 2), substr(path, 1, 1)) - 1) } else { sub(/[ \t].*/, "", path) }
    folder = here_file
    sub(/[^\/]*$/, "", folder)
    if (path !~ /^\//) { path = folder path }
    if (path in seen) { tell(here_file ":" here_line, path " was included before, and isn't again"); return }
    tell(here_file ":" here_line, path " put in place of the line")
    open_file(path)
}

# Cards.

function is_skipped(text) { return text ~ /^[*#-]/ || text ~ /^[ \t]*$/ }

# Each line that is written has its place in the source.
function put(text, path, from,   lines) {
    program[++size] = text
    lines = gsub(/\n/, "\n", text) + 1
    for (; lines > 0; lines--) { origin[size] = origin[size] path ":" from++ "\n" }
}

function put_skipped(where, text) {
    if (text ~ /^#/) { tell(where, "# in column 1 written as *"); text = "*" substr(text, 2) }
    put(text, where_file(where), where_line(where))
}

function where_file(where) { sub(/:[0-9]+$/, "", where); return where }
function where_line(where) { sub(/.*:/, "", where); return where + 0 }

# Reads a card and writes it. Behind END nothing is looked at, since those lines are input.
function card(   text, waiting, i, n, lines) {
    if (is_skipped(line)) { put_skipped(here_file ":" here_line, line); advance(); return }
    card_file = here_file; card_line = here_line
    text = line
    scan(text)
    ended = (mask ~ /(^|;)END([ \t;]|$)/)
    advance()
    waiting = ""
    while (!ended && more && (is_skipped(line) || line ~ /^[+.]/)) {
        waiting = waiting "\n" line
        if (line ~ /^[+.]/) { text = text waiting; waiting = "" }
        advance()
    }
    scan(text)
    if (is_too_large()) { stay(1, "", "a statement of more than 8,000 bytes is refused") } else { change() }
    if (!first_card && body !~ /^[*]/) { first_card = size + 1; first_label = label_of(mask) }
    if (ended) { end_card = size + 1; end_at = find("(^|;)END([ \t;]|$)", 1) + (mask ~ /^END([ \t;]|$)/ ? 0 : 1) }
    put(body, card_file, card_line)
    n = split(substr(waiting, 2), lines, "\n")
    for (i = 1; i <= n; i++) { put_skipped(card_file ":" here_line - n + i - 1, lines[i]) }
}

function label_of(text) { return match(text, /^[^ \t;]+/) ? substr(text, 1, RLENGTH) : "" }

# Whether the card is one statement that has too many bytes; comments, which are blanks of the mask, don't count.
function is_too_large(   text) {
    text = mask
    return length(mask) > 8000 && !index(mask, ";") && gsub(/[^ \t]/, "", text) > 8000
}

# Where the byte `at` of the card stands.
function place(at,   before) {
    before = substr(body, 1, at)
    return card_file ":" (card_line + gsub(/\n/, "", before))
}

# Makes body and mask of the text: capitals outside literals, and no comments behind `;`. Runs of bytes are taken in one, at
# most 1,000 of them.
function scan(text,   i, c, last, quote, end, below, run) {
    body = mask = quote = ""
    remarks = below = 0
    last = length(text)
    for (i = 1; i <= last; i++) {
        c = substr(text, i, 1)
        run = substr(text, i, 1000)
        if (c == "\n") {
            quote = ""
            below++
            # A line that continues, or one that is skipped.
            if (substr(run, 2, 1) !~ /[+.]/) { end = line_size(text, i + 1); both(substr(text, i, end), blanks(end)); i += end - 1; continue }
            both(substr(run, 1, 2), "  ")
            i++
        } else if (quote != "" && match(run, "^[^" quote "\n]+")) {
            both(substr(run, 1, RLENGTH), literal_signs(RLENGTH))
            i += RLENGTH - 1
        } else if (quote != "" || c == "'" || c == "\"") {
            both(c, "\001")
            if (quote == "") { quote = c } else if (quote == c) { quote = "" }
        } else if (c == ";" && substr(run, 2, 1) == "*") {
            remarks++
            i += line_size(text, i + 1) - 1
        } else if (match(run, /^[a-z]+/)) {
            run = substr(run, 1, RLENGTH)
            if (fold) { run = toupper(run); small(card_file, card_line + below) }
            both(run, run)
            i += RLENGTH - 1
        } else {
            match(run, /^(.[^'"\n;a-z]*)/)
            run = substr(run, 1, RLENGTH)
            both(run, run)
            i += RLENGTH - 1
        }
    }
}

# How many bytes stand from there to the end of its line, and one.
function line_size(text, from) { return index(substr(text, from) "\n", "\n") }

# Remembers a line in which a small letter became a capital; `ranges` are the lines of a file, such as 1-3, 7.
function small(path, n) {
    if (!(path in highest)) { order[++small_files] = path; ranges[path] = n } else if (n > highest[path] + 1) { ranges[path] = ranges[path] range_end(path) ", " n }
    if (!(path in highest) || n > highest[path] + 1) { begun[path] = n }
    if (n > highest[path]) { highest[path] = n }
}
function range_end(path) { return highest[path] > begun[path] ? "-" highest[path] : "" }

function both(text, sign) { body = body text; mask = mask sign }
function blanks(count,   signs) {
    for (; count > 1000; count -= 1000) { signs = signs sprintf("%1000s", "") }
    return signs sprintf("%" count "s", "")
}
function literal_signs(count,   signs) { signs = blanks(count); gsub(/ /, "\001", signs); return signs }

# Puts the text with this mask in the place of `count` bytes of the card.
function splice(at, count, text, sign) {
    body = substr(body, 1, at - 1) text substr(body, at + count)
    mask = substr(mask, 1, at - 1) sign substr(mask, at + count)
}

# The place of the next part of the mask, from `from` on, that the pattern matches, or 0; RLENGTH is its length.
function find(pattern, from) { return match(substr(mask, from), pattern) ? from + RSTART - 1 : 0 }

# Changes.

function change() {
    change_operators()
    change_keywords()
    change_names()
    change_numbers()
    change_items()
    change_statements()
    look_for_calls()
}

function change_operators(   at) {
    while ((at = find("[ \t][!^][ \t]", 1))) {
        tell(place(at), substr(body, at + 1, 1) " written as **")
        splice(at + 1, 1, "**", "**")
    }
    while ((at = find("\302?\254", 1))) { tell(place(at), "the sign for not written as ~"); splice(at, RLENGTH, "~", "~") }
}

# &LCASE and its like become their values.
function change_keywords(   at, from, name, text) {
    for (from = 1; (at = find("&[A-Z][A-Z0-9_.]*", from)); from = at + 1) {
        name = substr(mask, at + 1, RLENGTH - 1)
        if (!(name in value)) { continue }
        text = value[name]
        tell(place(at), "&" name " written as " text)
        splice(at, RLENGTH, text, text ~ /^'/ ? literal_signs(length(text)) : text)
    }
}

# Names in literals: of DEFINE and DATA all, of CONVERT the type, and what $ takes; blanks in prototypes go.
function change_names(   at, from, name) {
    from = 1
    while ((at = find(CALL, from))) {
        from = at + RLENGTH
        name = substr(mask, at, RLENGTH - 1)
        if (name in alias) {
            tell(place(at), name "( written as " alias[name] "(")
            splice(at, length(name), alias[name], alias[name])
            from += length(alias[name]) - length(name)
            name = alias[name]
        }
        if (name == "NSPAN" && !(name in predefined)) { change_nspan(at) }
        if (name == "DEFINE") { change_literals(from, 1, 1); defines(from, 1) }
        if (name == "DATA") { change_literals(from, 1, 1); defines(from, 200) }
        if (name == "ARRAY") { change_literals(from, 0, 1) }
        if (name == "CONVERT") { change_literals(type_place(from), 1, 0) }
    }
    for (from = 1; (at = find("[$][(]?[ \t]*\001", from)); from = at + 1) { change_literals(at + RLENGTH - 1, 1, 0) }
}

# NSPAN(S), which may match null.
function change_nspan(at,   end) {
    end = at + 6 + closing(at + 6)
    if (substr(mask, end, 1) != ")") { return }
    splice(end, 1, ") | '')", ") | \001\001)")
    splice(at, 6, "FENCE(SPAN(", "FENCE(SPAN(")
    tell(place(at), "NSPAN(..) written as FENCE(SPAN(..) | '')")
}

# Blanks of literals that are numbers, beside an operator of numbers or in a comparison.
function change_numbers(   at, from, old, new, before, behind) {
    for (from = 1; (at = find("\001+", from)); from = at + length(new)) {
        old = new = substr(body, at, RLENGTH)
        if (old !~ /^.[ \t]*[-+]?[0-9]+[ \t]*.$/ || old !~ /[ \t]/) { continue }
        before = substr(mask, 1, at - 1)
        behind = substr(mask, at + length(old))
        if (before ~ /(^|[^A-Za-z0-9_.])(EQ|NE|LT|LE|GT|GE|REMDR)[(][^()]*$/ || before ~ /[ \t]([*][*]|[-+*\/])[ \t]+$/ || before ~ /[ \t(,][-+]$/ || behind ~ /^[ \t]+([*][*]|[-+*\/])[ \t]/) {
            gsub(/[ \t]/, "", new)
            tell(place(at), old " written as " new)
            splice(at, length(old), new, literal_signs(length(new)))
        }
    }
}

# ITEM(A,I) is A<I>, where A is a name.
function change_items(   at, from, end, name) {
    if ("ITEM" in predefined) { return }
    for (from = 1; (at = find("(^|[^A-Za-z0-9_.])ITEM[(][ \t]*" NAME "[ \t]*,", from)); from = at + 1) {
        end = at + RLENGTH
        if (substr(mask, at, 1) != "I") { at++ }
        name = substr(mask, at + 5, end - at - 6)
        gsub(/[ \t]/, "", name)
        from = end + closing(end)
        if (substr(mask, from, 1) != ")") { continue }
        splice(from, 1, ">", ">")
        splice(at, end - at, name "<", name "<")
        tell(place(at), "ITEM(" name ",..) written as " name "<..>")
    }
}

# The place behind the last comma of the arguments that begin there.
function type_place(from,   at, end) {
    end = from + closing(from)
    for (at = end; at > from && substr(mask, at, 1) != ","; at--) { }
    return at > from ? at : end
}

# How many bytes stand from there to the end of the bracket that is open, or of the card.
function closing(from,   i, c, open) {
    for (i = from; i <= length(mask); i++) {
        c = substr(mask, i, 1)
        if (c ~ /[[(<]/) { open++ } else if (c ~ /[])>]/ && --open < 0) { break }
    }
    return i - from
}

# Changes the literals from there to the end of the bracket that is open, but none in a bracket inside it.
function change_literals(from, with_capitals, without_blanks,   at, end, open, c, old, new) {
    for (at = from; at <= length(mask) && open >= 0; at++) {
        c = substr(mask, at, 1)
        if (c ~ /[[(<]/) { open++ } else if (c ~ /[])>]/) { open-- }
        if (c != "\001" || open) { continue }
        match(substr(mask, at), "\001+")
        old = new = substr(body, at, RLENGTH)
        if (with_capitals && fold) { new = toupper(new) }
        if (without_blanks) { gsub(/[ \t]/, "", new) }
        if (new != old) {
            tell(place(at), old " written as " new)
            splice(at, length(old), new, literal_signs(length(new)))
        }
        at += length(new) - 1
    }
}

# The program defines these functions itself: the first names of a prototype.
function defines(from, most,   text, i, n, names) {
    if (!match(substr(mask, from), "^[ \t]*\001+")) { return }
    text = substr(body, from, RLENGTH)
    gsub(/['" \t]/, "", text)
    n = split(text, names, /[(),]/)
    for (i = 1; i <= n && i <= most; i++) { if (names[i] != "") { defined[names[i]] } }
}

# The statements of the card, the last first, so that what stands before one keeps its place.
function change_statements(   from, end) {
    for (end = length(mask); end >= 0; end = from - 2) {
        for (from = end + 1; from > 1 && substr(mask, from - 1, 1) != ";"; from--) { }
        change_statement(from, end - from + 1)
    }
}

function change_statement(from, count,   text, label, core, goto_, name) {
    text = substr(mask, from, count)
    match(text, /^[^ \t]*/)
    label = RLENGTH
    if (text ~ /^END([ \t]|$)/) { change_end(from, count); return }
    match(text, /[ \t]+:/)
    goto_ = RSTART ? RSTART : count + 1
    match(text, /^[^ \t]*[ \t]*/)
    core = substr(text, RLENGTH + 1, goto_ - RLENGTH - 1)
    from += RLENGTH
    look_for_limits(from, substr(text, 1, label), core, substr(text, goto_))
    if (core ~ /^[^ \t=]+[ \t]+=[ \t]+[^ \t=]+[ \t]+=([ \t]|$)/ && core !~ /\n/) { core = change_chain(from, core) }
    if (!is_dropped(core, from)) { core = change_units(from, core) }
    if (core ~ /^[^ \t]+[ \t]+[?][ \t]/) {
        tell(place(from), "? before a pattern taken out")
        match(core, /[ \t]+[?]/)
        splice(from + RSTART - 1, RLENGTH, "", "")
    } else if (is_dropped(core, from)) {
        sub(/[ \t]+$/, "", core)
        name = substr(body, from, length(core))
        gsub(/\n[^\n]/, " ", name)
        tell(place(from), name " taken out" hint(core))
        if (!label && goto_ > count && count == length(mask)) {
            gsub(/\n/, "\n*", body)
            body = "*" substr(body, 2)
            gsub(/./, " ", mask)
        } else {
            splice(from, length(core), "", "")
        }
    }
}

# A = B = 'X', where the last part can't fail: a statement for each =. Returns the mask of what stands there.
function change_chain(at, core,   new, new_mask, n, i, begun, where) {
    n = 0
    for (where = 1; match(substr(core, where), /[ \t]+=([ \t]+|$)/); where += RSTART + RLENGTH - 1) {
        begun[++n] = where
        size_of[n] = RSTART - 1
    }
    begun[++n] = where
    size_of[n] = length(core) - where + 1
    if (substr(core, where) ~ /[(<\[$@&]|INPUT/) { return core }
    for (i = n - 1; i >= 1; i--) {
        new = new (new == "" ? "" : "; ") part_at(body, at, begun[i], size_of[i]) " = " part_at(body, at, begun[i + 1], size_of[i + 1])
        new_mask = new_mask (new_mask == "" ? "" : "; ") part_at(mask, at, begun[i], size_of[i]) " = " part_at(mask, at, begun[i + 1], size_of[i + 1])
    }
    tell(place(at), substr(body, at, length(core)) " written as " new)
    splice(at, length(core), new, new_mask)
    return new_mask
}
function part_at(text, at, from, count) { return substr(text, at + from - 1, count) }

# Variables that stand for standard input or output are written as these.
function change_units(at, core,   name, from, found) {
    for (name in unit) {
        if (name == unit[name]) { continue }
        for (from = 1; match(substr(core, from), "(^|[^A-Za-z0-9_.&])" name "([^A-Za-z0-9_.(]|$)"); from = found + length(unit[name])) {
            found = from + RSTART - 1
            if (substr(core, found, length(name)) != name) { found++ }
            tell(place(at + found - 1), name " written as " unit[name])
            splice(at + found - 1, length(name), unit[name], unit[name])
            core = substr(core, 1, found - 1) unit[name] substr(core, found + length(name))
        }
    }
    return core
}

# Where a program may come to the limits that a run has by itself: loops, searches, functions that call themselves.
function look_for_limits(at, label, core, goto_,   name, rest) {
    if (label != "") { labels[label] }
    if (label in entries) { within = entries[label] }
    if (label in passed) { within = "" }
    if (core ~ /^DEFINE[(]/) { learn_entry(substr(body, at, length(core)), goto_) }
    for (rest = goto_; match(rest, /[(][ \t]*[A-Za-z0-9][A-Za-z0-9_.]*/); rest = substr(rest, RSTART + RLENGTH)) {
        name = substr(rest, RSTART + 1, RLENGTH - 1)
        gsub(/[ \t]/, "", name)
        if (name in labels && !loop_place) { loop_place = place(at) }
    }
    if (!search_place && core ~ "(^|[^A-Za-z0-9_.])(ARB|BAL|ARBNO[(]|[*][A-Za-z])") { search_place = place(at) }
    if (within != "" && !call_place && core ~ "(^|[^A-Za-z0-9_.])" within "[(]") { call_place = place(at); call_name = within }
    if (core ~ /^&STLIMIT[ \t]+=[ \t]*[0-9]+[ \t]*$/) {
        rest = core
        gsub(/[^0-9]/, "", rest)
        if (rest + 0 <= 1000000) { bounded = 1 }
    }
}

# The label at which calls of a function begin, and the one to which its definition goes on.
function learn_entry(text, goto_,   parts) {
    if (match(text, "DEFINE[(][ \t]*['\"]" NAME)) {
        parts = substr(text, RSTART, RLENGTH)
        sub(/.*['"]/, "", parts)
        entries[parts] = parts
        if (match(text, "['\"][ \t]*,[ \t]*['\"]" NAME "['\"][ \t]*[)]")) {
            text = substr(text, RSTART, RLENGTH)
            gsub(/[^A-Za-z0-9_.]/, "", text)
            entries[text] = parts
        }
    }
    if (match(goto_, /[(][ \t]*[A-Za-z0-9][A-Za-z0-9_.]*/)) {
        text = substr(goto_, RSTART + 1, RLENGTH - 1)
        gsub(/[ \t]/, "", text)
        passed[text]
    }
}

function tell_limits() {
    if (loop_place && !bounded) { told = told loop_place ": runs are bound to 1,000,000 statements: --statements N\n" }
    if (search_place) { told = told search_place ": each match is bound to 1,000,000 steps: --match-steps N\n" }
    if (call_place) { told = told call_place ": " call_name " calls itself, and 200 calls may be open\n" }
}

# Whether a statement with this core does nothing that this language has, or is done by what was changed.
function is_dropped(core, at,   name) {
    if (core ~ /^OPSYN[(]/ && is_alias(substr(body, at, length(core)))) { return 1 }
    if (core ~ /^(INPUT|OUTPUT)[(]/ && substr(body, at, length(core)) ~ "^" UNITS "[ \t]*$") { return 1 }
    if (core ~ /^(TRACE|STOPTR|DUMP|COLLECT)[(][^()]*[)][ \t]*$/) { return 1 }
    if (core !~ /^&[A-Z]+[ \t]+=[ \t]*([-+]?[A-Z0-9_.]+|\001+)?[ \t]*$/) { return 0 }
    name = substr(core, 2)
    sub(/[ \t].*/, "", name)
    if (name == "STLIMIT" && core ~ /=[ \t]*[0-9]+[ \t]*$/) { sub(/.*=[ \t]*/, "", core); return core + 0 > 1000000 }
    return name in dropped
}

# Whether a call of OPSYN is one that the calls of its first name stand for.
function is_alias(text) {
    if (text !~ "^" ALIAS "[ \t]*$") { return 0 }
    sub(/^OPSYN[(][ \t]*['".]/, "", text)
    sub(/[^A-Za-z0-9_.].*/, "", text)
    return text in alias
}

function hint(core) {
    if (core ~ /^&STLIMIT/) { return ": give --statements" }
    if (core ~ /^&CASE/) { return ": --keep-case leaves small letters" }
    if (core ~ /^&ERRLIMIT/) { return ": an error ends the run" }
    return ""
}

# `END L` begins at L: kept, since a prelude begins at another place.
function change_end(from, count,   text) {
    text = substr(mask, from, count)
    if (match(text, /^END[ \t]+[^ \t]+/)) {
        start = substr(text, 5, RLENGTH - 4)
        gsub(/[ \t]/, "", start)
        start_place = place(from)
    }
}

# What is called, and what stays and won't run.
function look_for_calls(   at, from, name) {
    if (remarks) { tell(place(1), "comment behind ; taken out") }
    from = 1
    while ((at = find(CALL, from))) {
        from = at + RLENGTH
        name = substr(mask, at, RLENGTH - 1)
        called[name]
        if (name in none) { stay(at, name, "a call of " name " is error 4") }
    }
    for (from = 1; (at = find("&[A-Z][A-Z0-9_.]*", from)); from = at + 1) {
        name = substr(mask, at + 1, RLENGTH - 1)
        if (!(name in keyword)) { stay(at, "", "&" name " is error 14") }
    }
    if ((at = find("(^|[^A-Z0-9_.])[0-9]+[.][0-9]", 1))) { stay(at, "", "a real number is refused") }
    if ((at = find("[ \t][?][ \t]", 1))) { stay(at, "", "? between operands is refused") }
    if ((at = find("[ \t]:[ \t]*[SF]?<", 1))) { stay(at, "", "a direct goto is refused") }
    if ((at = find("[(][ \t]*NRETURN[ \t]*[)]", 1))) { stay(at, "", "NRETURN is error 5") }
    if ((at = find("[ \t][.$][ \t]+[*]|@[*]", 1))) { stay(at, "", "a target that isn't evaluated is error 15") }
    if ((at = find("(^|[ \t(,])(TERMINAL|PUNCH)([ \t),]|$)", 1))) { stay(at, "", "TERMINAL and PUNCH write and read nothing") }
}

function stay(at, name, text) {
    stays++
    stay_name[stays] = name
    stay_card[stays] = card_file ":" card_line
    stay_text[stays] = place(at) ": stays: " text
}

# What is written.

function write_input(   lines, path) {
    path = ENVIRON["PORT_DATA"]
    printf "" > path
    for (; more; advance()) { print line > path; lines++ }
    close(path)
    if (!lines) { return }
    if (ENVIRON["PORT_INPUT"] != "") {
        tell(card_file ":" card_line, "the lines behind END, " lines " in all, written to " ENVIRON["PORT_INPUT"])
    } else {
        tell(card_file ":" card_line, "lines behind END, " lines " in all, are left out: --input FILE writes them to FILE")
    }
}

# The functions of the prelude stand between lines without anything, and the first line of each names it.
function read_prelude(   paragraph, path, head, got) {
    path = ENVIRON["PORT_PRELUDE"]
    RS = ""
    while ((got = (getline paragraph < path)) > 0) {
        functions[++paragraphs] = paragraph
        head = paragraph
        sub(/\n.*/, "", head)
        sub(/:.*/, "", head)
        heads[paragraphs] = head
        while (match(head, CALL)) { supplied[substr(head, RSTART, RLENGTH - 1)]; head = substr(head, RSTART + RLENGTH) }
    }
    if (got < 0) { fault(3, "cannot read " path) }
    close(path)
    RS = "\n"
}

# The functions of the prelude that are called, and what is told of them.
function choose_functions(   i, names, name, part) {
    for (i = 1; i <= paragraphs; i++) {
        names = ""
        for (name in called) {
            if (!(name in defined) && index(heads[i], " " name "(")) { names = names (names == "" ? "" : ", ") name }
        }
        if (names == "") { continue }
        tell(card_file ":" card_line, names " put before END, from the prelude")
        part = part functions[i] "\n"
    }
    return part
}

# Puts functions before END, and lets the program begin there: so its statements keep their numbers. They are gone through
# once, and then the program begins where it would have.
function put_functions(part,   text) {
    if (start == "") { start = name_first() } else { tell(start_place, "END " start " written as END PORT.B, behind which the program begins at " start) }
    text = program[end_card]
    if (end_at > 1) {
        before_end = substr(text, 1, end_at - 2) "\n"
        text = substr(text, end_at)
    }
    before_end = before_end "       :(END)\nPORT.B\n" part "       :(" start ")\n"
    program[end_card] = "END PORT.B" (match(text, /\n/) ? substr(text, RSTART) : "")
}

# The label of the first statement, which gets one where it has none.
function name_first() {
    if (!first_card || first_card == end_card && end_at == 1) { return "END" }
    if (first_label == "") {
        first_label = "PORT.A"
        tell(where_of(first_card), "the label PORT.A put before the first statement")
        blanks_before = match(program[first_card], /^       /) ? length(first_label) : 0
        program[first_card] = first_label (blanks_before ? "" : " ") substr(program[first_card], blanks_before + 1)
        if (first_card == end_card && !blanks_before) { end_at += length(first_label) + 1 }
    }
    return first_label
}
function where_of(number,   text) { text = origin[number]; sub(/\n.*/, "", text); return text }

function write_program(   i, name, part, map) {
    part = choose_functions()
    if (part != "") { put_functions(part) }
    for (i = 1; i <= small_files; i++) {
        name = order[i]
        tell(name ":" ranges[name] range_end(name), "small letters outside literals written as capitals")
    }
    tell_limits()
    printf "" > ENVIRON["PORT_KNOWN"]
    for (i = 1; i <= stays; i++) {
        if (stay_name[i] in defined) { continue }
        told = told stay_text[i] "\n"
        print stay_card[i] > ENVIRON["PORT_KNOWN"]
    }
    printf "%s", told > ENVIRON["PORT_TOLD"]
    map = ENVIRON["PORT_MAP"]
    printf "" > map
    for (i = 1; i <= size; i++) {
        if (i == end_card) { write_functions(map) }
        print program[i]
        printf "%s", origin[i] > map
    }
}
function write_functions(map,   text, lines) {
    text = before_end
    printf "%s", text
    lines = gsub(/\n/, "\n", text)
    for (; lines > 0; lines--) { print "prelude:0" > map }
}

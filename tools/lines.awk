# The work of tools/lines. `text` is the whole text; close[i] is the place of the ")" that belongs to the "(" at i.
#
# A list that fits into a line is read by READ. Any other is put together in `holder`, run by run: as many elements as fit
# into a line are read into `run` and joined. An element that is too long itself is built by the same rule. Meanwhile
# what there is of the list around it waits as the first element of the list in `waiting`; the finished element is then
# moved to `run`, made a list of one element in `single`, and joined.

function fault(answer, i) {
    if (failed) return
    print "tools/lines: " answer (i > 0 ? " at character " i : "") > "/dev/stderr"
    failed = 1
}

function fits(i, end) { return end - i + 1 <= MOST }

# the end of the atom that starts at i
function atom_end(i,   digits) {
    match(substr(text, i, 13), /^[0-7]*/)
    digits = RLENGTH
    if (digits > 11 || (digits == 11 && substr(text, i, 1) > "3")) fault("16 ATOM", i)
    return i + digits - 1
}

# Goes along the text once: where each list ends, how many cells there are, and the first fault. `before` is what came
# last: "(" or "," or the end of an element, which is ")".
function look(   i, c, level, open, before, size) {
    size = length(text)
    before = ","
    for (i = 1; i <= size && !failed; i++) {
        c = substr(text, i, 1)
        if (level == 0 && (i > 1 || c != "(")) fault("15 NOT A LIST", i)
        else if (c == "(" && before != ")") {
            if (level == LEVELS) fault("17 DEEP", i)
            open[++level] = i
        } else if (c ~ /[0-7]/ && before != ")") i = atom_end(i)
        else if (c == ")" && before != ",") close_at[open[level--]] = i
        else if (c != "," || before != ")") fault("15 NOT A LIST", i)
        if (c == "(" || c ~ /[0-7]/) cells++
        before = c ~ /[0-7)]/ ? ")" : c
    }
    if (size == 0) fault("14 END", 1)
    if (level > 0) fault("15 NOT A LIST: it ends", size + 1)
    cells-- # the outermost "(" takes none
}

function say(line) { print line }

# Elements that fit into a line: the first of their list go straight to the holder.
function join_run(elements, level) {
    if (elements == "") return
    say("READ " (begun[level] ? run : holder) " (" elements ")")
    if (begun[level]) say("CONC " holder " " run)
    begun[level] = 1
}

# The list in the holder is finished, and is an element of the one that waits.
function join_finished(level) {
    say("CONC " run " " holder)
    say("DECAP " waiting " " holder)
    say("PFL " single " " run)
    say("CONC " holder " " single)
    begun[level] = 1
}

# Goes along the elements, with a level for each list that is too long for a line. (A function that calls itself would
# meet the limit of some awks at 200 levels.)
function build(   i, level, stop, end, elements) {
    stop[level = 1] = close_at[1]
    for (i = 2; level > 0; ) {
        end = i >= stop[level] ? 0 : substr(text, i, 1) == "(" ? close_at[i] : atom_end(i)
        if (end == 0 || length(elements) + end - i + 4 > MOST) {
            join_run(elements, level)
            elements = ""
        }
        if (end == 0) { # the list ends here
            i = stop[level--] + 2
            if (level > 0) join_finished(level)
        } else if (fits(i - 1, end + 1)) {
            elements = elements (elements == "" ? "" : ",") substr(text, i, end - i + 1)
            i = end + 2
        } else {
            say("PFL " waiting " " holder)
            stop[++level] = close_at[i++]
            begun[level] = 0
        }
    }
}

BEGIN {
    MOST = 200 - length("READ 00 ")
    LEVELS = 200
    CELLS = 4000
    waiting = scratch + 0
    run = scratch + 1
    single = scratch + 2
    holder += 0
    if (single > 63 || (holder >= waiting && holder <= single)) {
        print "tools/lines: holder " holder " and the holders " waiting " to " single " must be different and below 64" > "/dev/stderr"
        failed = 2
        exit failed
    }
}

{ text = text $0 }

END {
    if (failed) exit failed
    sub(/ +$/, "", text)
    look()
    if (!failed && cells > CELLS) fault("12 NO ROOM: the list takes " cells " cells, a pool has at most " CELLS)
    if (failed) exit failed
    if (fits(1, length(text))) say("READ " holder " " text)
    else build()
}

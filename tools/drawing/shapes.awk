# The shapes of a picture: boxes of cells and holders, and the arrows between them. All places are in units of SVG, from
# the picture's own corner. Shapes are kept until the size of the whole is known.

function left(p, c) { return MARGIN + column[p, c] * PITCH }
function top(p, c) { return TOP + row[p, c] * ROW + (lost[p, c] ? LOST_GAP : 0) }

function escaped(s) { gsub(/&/, "\\&amp;", s); gsub(/</, "\\&lt;", s); gsub(/>/, "\\&gt;", s); return s }
function shape(s) { shapes[++drawn] = "  " s }
function box(class, x, y, w, h, round) { shape(sprintf("<rect class=\"%s\" x=\"%g\" y=\"%g\" width=\"%g\" height=\"%g\" rx=\"%g\"/>", class, x, y, w, h, round)) }
function say(class, x, y, s) { shape(sprintf("<text class=\"%s\" x=\"%g\" y=\"%g\">%s</text>", class, x, y, escaped(s))) }
function line(class, d) { shape("<path class=\"" class "\" d=\"" d "\"/>") }

# How a cell or holder is filled, and whether it is ringed as wrong or as different.
function looks(p, where, fill) {
    return "box " fill (wrong[p, where] ? " wrong" : "") (pictures == 2 && differs[where] ? " differs" : "")
}

function octal(v,   s) {
    for (s = v % 8 ""; v >= 8; s = v % 8 s) v = int(v / 8)
    return s
}

function draw_cell(p, c,   x, y, what) {
    x = left(p, c)
    y = top(p, c)
    box(looks(p, "c" c, count(p, c) > 1 ? "shared" : "cell"), x, y, WIDE, HIGH, 5)
    say("number", x + 7, y + 15, c)
    say((count(p, c) == 1 ? "one" : "many") (count(p, c) != arrows[p, c] + 0 ? " bad" : ""), x + WIDE - 7, y + 15, "×" count(p, c))
    if (type(p, c) == 0) what = octal(element(p, c))
    else if (type(p, c) > 1) what = "type " type(p, c)
    else if (element(p, c) == 0) what = "( )"
    else if (!live(p, element(p, c))) what = "→ " element(p, c)
    else { shape(sprintf("<circle class=\"dot\" cx=\"%g\" cy=\"%g\" r=\"3.5\"/>", x + WIDE / 2, y + HIGH - 11)); return }
    say(length(what) > 9 ? "narrow" : "value", x + WIDE / 2, y + 36, what)
}

# The holders of a cell: before it, if its run starts there, and above it otherwise.
function draw_holder(p, c,   x, y, who, class, wide) {
    if (!tags[p, c]) return
    who = tagged[p, c]
    if (length(who) > 22) who = substr(who, 1, 20) "…"
    class = "box holder" (pictures == 2 && tag_differs[p, c] ? " differs" : "")
    x = left(p, c)
    y = top(p, c)
    if (c != cell[p, run[p, c], 1]) {
        who = (tags[p, c] > 1 ? "holders " : "holder ") who
        wide = 16 + 6.4 * length(who)
        if (wide < WIDE) wide = WIDE
        box(class, x + (WIDE - wide) / 2, y - 34, wide, 20, 10)
        say("name", x + WIDE / 2, y - 20, who)
        line("arrow", sprintf("M%g,%g V%g", x + WIDE / 2, y - 14, y - 1))
        return
    }
    box(class, x - PITCH, y + 8, WIDE, HIGH - 16, 17)
    say("name", x - PITCH + WIDE / 2, y + (tags[p, c] > 1 ? 22 : 29), tags[p, c] > 1 ? "holders" : "holder " who)
    if (tags[p, c] > 1) say(length(who) > 8 ? "tiny" : "name", x - PITCH + WIDE / 2, y + 36, who)
    line("arrow", sprintf("M%g,%g H%g", x - PITCH + WIDE, y + HIGH / 2, x - 1))
}

# where the next arrow from above ends at a cell: several arrows stand beside each other
function landing(p, c,   k) {
    k = landed[p, c]++
    return left(p, c) + WIDE / 2 + (k % 2 ? 1 : -1) * int((k + 1) / 2) % 3 * 11
}

function draw_successor(p, c,   to, x, y, tx, ty) {
    to = next_of(p, c)
    x = left(p, c) + WIDE
    y = top(p, c) + HIGH / 2
    if (to == 0) return
    if (!live(p, to)) { line("arrow bad", sprintf("M%g,%g h22", x, y)); say("bad start small", x + 3, y - 5, to); return }
    tx = left(p, to)
    ty = top(p, to) + HIGH / 2
    if (ty == y && tx > x && tx - x < PITCH) line("arrow", sprintf("M%g,%g H%g", x, y, tx - 1))
    else if (before[p, to] == c && ty > y) line("arrow", sprintf("M%g,%g h9 V%g H%g V%g H%g", x, y, y + ROW / 2 + 8, tx - 11, ty, tx - 1))
    else {
        tx = landing(p, to)
        line("arrow into", sprintf("M%g,%g C%g,%g %g,%g %g,%g", x, y, x + 45, y, tx, top(p, to) - 45, tx, top(p, to) - 1))
    }
}

# A curve down to a cell. Where rows lie between, it goes down beside the columns, so that it passes behind no cell.
function draw_down(class, x, y, tx, ty, column_left,   lane) {
    if (ty - y < ROW) { line(class, sprintf("M%g,%g C%g,%g %g,%g %g,%g", x, y, x, y + 40, tx, ty - 38, tx, ty)); return }
    lane = column_left - (PITCH - WIDE) / 2 + (lanes[column_left]++ % 5 - 2) * 4
    line(class, sprintf("M%g,%g C%g,%g %g,%g %g,%g V%g C%g,%g %g,%g %g,%g", x, y, x, y + 36, lane, y + 22, lane, y + 58, ty - 52, lane, ty - 18, tx, ty - 38, tx, ty))
}

function draw_element(p, c,   to, x, y, tx, class) {
    to = arrow(p, c, 1)
    if (!live(p, to)) return
    class = "arrow" (count(p, to) > 1 ? " into" : "")
    x = left(p, c) + WIDE / 2
    y = top(p, c) + HIGH - 11
    tx = landing(p, to)
    if (top(p, to) > y) draw_down(class, x, y, tx, top(p, to) - 1, left(p, to))
    else line(class, sprintf("M%g,%g C%g,%g %g,%g %g,%g", x, y, x + 70, y + 50, tx + 90, top(p, to) - 60, tx, top(p, to) - 1))
}

# The free chain, its first cells one by one. Gives the place below it.
function draw_free(p, y,   k, c, x, shown) {
    say("title small", MARGIN, y, "free chain: " words_of(chained[p], "cell") (broken[p] ? ", then the chain breaks" : ""))
    y += 10
    shown = chained[p] <= FREE_SHOWN + 1 ? chained[p] : FREE_SHOWN
    for (k = 1; k <= shown; k++) {
        c = chain[p, k]
        x = MARGIN + (k - 1) * FREE_PITCH
        box(looks(p, "c" c, "free"), x, y, FREE_WIDE, 24, 5)
        say("value small", x + FREE_WIDE / 2, y + 17, c)
        if (k < chained[p]) line("arrow thin", sprintf("M%g,%g h%g", x + FREE_WIDE, y + 12, FREE_PITCH - FREE_WIDE - 1))
    }
    if (shown < chained[p]) say("start small", MARGIN + shown * FREE_PITCH + 4, y + 17, "and " chained[p] - shown " more")
    return chained[p] > 0 ? y + 24 + 22 : y
}

# What cannot be drawn as part of a list: holders that name no live cell, and cells on no chain.
function draw_astray(p, y,   k, x) {
    if (astrays[p] + strays[p] == 0) return y
    say("title small bad", MARGIN, y, "leads nowhere, or is on no chain")
    y += 10
    for (k = 1; k <= astrays[p] + strays[p] && k <= 2 * COLUMNS; k++) {
        x = MARGIN + (k - 1) % COLUMNS * PITCH
        if (k > 1 && k % COLUMNS == 1) y += 34
        if (k <= astrays[p]) {
            box(looks(p, "h" astray[p, k], "holder"), x, y, PITCH - 8, 26, 13)
            say("tiny", x + PITCH / 2 - 4, y + 17, "holder " astray[p, k] " → " holder(p, astray[p, k]))
        } else {
            box(looks(p, "c" stray[p, k - astrays[p]], "free"), x, y, FREE_WIDE, 26, 5)
            say("value small", x + FREE_WIDE / 2, y + 18, stray[p, k - astrays[p]])
        }
    }
    return y + 26 + 22
}

# Where each cell is drawn. Cells that follow each other by their successors are a run, drawn from left to right. Runs
# that arrows join are a group; groups stand below each other. Inside, a run stands in a band below all that lead to it,
# near the first cell that does. So column[p, c] and row[p, c] are a cell's place, and rows[p] the rows of the picture.

# cells that no holder reaches are drawn apart from the others
function together(p, c, d) { return lost[p, c] + 0 == lost[p, d] + 0 }

# the first cell met that is followed by c; a cell has one run, whoever else leads to it
function find_before(p,   k, c, to) {
    for (k = 1; k <= founds[p]; k++) {
        c = found[p, k]
        to = next_of(p, c)
        if (live(p, to) && to != c && together(p, c, to) && !((p, to) in before)) before[p, to] = c
    }
}

function make_run(p, c,   r) {
    r = ++runs[p]
    while (live(p, c) && !((p, c) in run)) {
        run[p, c] = r
        cell[p, r, ++length_of[p, r]] = c
        if (before[p, next_of(p, c)] != c) break
        c = next_of(p, c)
    }
    section[p, r] = lost[p, cell[p, r, 1]] + 0
}

function make_runs(p,   k) {
    for (k = 1; k <= founds[p]; k++) if (!((p, found[p, k]) in before)) make_run(p, found[p, k])
    for (k = 1; k <= founds[p]; k++) if (!((p, found[p, k]) in run)) make_run(p, found[p, k]) # rings
}

# The arrows from run to run, as pairs; the first that ends at a run is its parent.
function join_runs(p,   k, c, which, to, r, s) {
    for (k = 1; k <= founds[p]; k++) {
        c = found[p, k]
        for (which = 1; which <= 2; which++) {
            to = arrow(p, c, which)
            if (!live(p, to) || !together(p, c, to)) continue
            r = run[p, c]
            s = run[p, to]
            if (r == s) continue
            leads[p, ++joins[p]] = r
            follows[p, joins[p]] = s
            out_next[p, joins[p]] = out_first[p, r]
            out_first[p, r] = joins[p]
            waits[p, s]++
            if (!((p, s) in parent)) parent[p, s] = c
        }
    }
}

# Runs that arrows join belong to one group, named after its first run.
function make_groups(p,   r, k, a, b, again) {
    for (r = 1; r <= runs[p]; r++) group[p, r] = r
    for (again = 1; again; ) {
        again = 0
        for (k = 1; k <= joins[p]; k++) {
            a = group[p, leads[p, k]]
            b = group[p, follows[p, k]]
            if (a == b) continue
            if (a < b) group[p, follows[p, k]] = a
            else group[p, leads[p, k]] = b
            again = 1
        }
    }
    for (r = 1; r <= runs[p]; r++) members[p, group[p, r]]++
}

# Gives a run its band, and lets the runs below it know; those that wait for nobody else are next.
function rank(p, r,   k, s, g) {
    ranked[p, r] = 1
    g = group[p, r] SUBSEP band[p, r] + 0
    in_band[p, g, ++band_size[p, g]] = r
    for (k = out_first[p, r]; k > 0; k = out_next[p, k]) {
        s = follows[p, k]
        if (ranked[p, s]) continue
        if (band[p, s] < band[p, r] + 1) band[p, s] = band[p, r] + 1
        if (--waits[p, s] == 0) ready[p, ++readies[p]] = s
    }
}

# Bands: a run comes below all that lead to it. Where runs lead to each other in a ring, the first is taken as it is.
function make_bands(p,   r, taken) {
    for (r = 1; r <= runs[p]; r++) if (waits[p, r] + 0 == 0) ready[p, ++readies[p]] = r
    for (r = 1; r <= runs[p]; r++) {
        while (taken < readies[p]) if (!ranked[p, ready[p, ++taken]]) rank(p, ready[p, taken])
        if (!ranked[p, r]) rank(p, r)
    }
    while (taken < readies[p]) if (!ranked[p, ready[p, ++taken]]) rank(p, ready[p, taken])
}

# Holders by the cell that they name; those that name none are put aside.
function tag_holders(p,   h, to) {
    for (h = 0; h < 64; h++) {
        to = holder(p, h)
        if (to == 0) continue
        if (!live(p, to)) { astray[p, ++astrays[p]] = h; continue }
        tags[p, to]++
        tagged[p, to] = tagged[p, to] (tags[p, to] > 1 ? ", " : "") h
        if (differs["h" h]) tag_differs[p, to] = 1
    }
}

function tag_room(p, r) { return tags[p, cell[p, r, 1]] > 0 }

function width(p, r) { return (length_of[p, r] > COLUMNS ? COLUMNS : length_of[p, r]) + tag_room(p, r) }

# Puts a run into the row that is open, or into a new one, below what leads to it if there is room.
function put_run(p, r,   want, room, i, c) {
    room = COLUMNS + 1 - width(p, r)
    want = (p, r) in parent ? column[p, parent[p, r]] - tag_room(p, r) : 0
    if (want > room) want = room
    if (want < cursor) want = cursor
    if (want > room) { # the row is full
        rows[p]++
        want = column[p, parent[p, r]] - tag_room(p, r)
        if (want > room) want = room
        if (want < 0) want = 0
    }
    for (i = 1; i <= length_of[p, r]; i++) {
        c = cell[p, r, i]
        column[p, c] = want + tag_room(p, r) + (i - 1) % COLUMNS
        row[p, c] = rows[p] + int((i - 1) / COLUMNS)
        if (column[p, c] + 1 > columns[p]) columns[p] = column[p, c] + 1
    }
    cursor = want + width(p, r) + 1
    if (length_of[p, r] <= COLUMNS) return
    rows[p] += int((length_of[p, r] - 1) / COLUMNS) # it fills several rows alone
    cursor = COLUMNS + 2
}

# The runs of a group's band from left to right, by the column of what leads to them.
function put_band(p, g,   k, left, best) {
    cursor = 0
    for (left = band_size[p, g]; left > 0; left--) {
        best = 1
        for (k = 2; k <= left; k++) if (column[p, parent[p, in_band[p, g, k]]] < column[p, parent[p, in_band[p, g, best]]]) best = k
        put_run(p, in_band[p, g, best])
        for (k = best; k < left; k++) in_band[p, g, k] = in_band[p, g, k + 1]
    }
    rows[p]++
}

# Groups below each other; those of one run share rows.
function put_groups(p, part,   g, b, open) {
    for (g = 1; g <= runs[p]; g++) {
        if (members[p, g] + 0 == 0 || section[p, g] != part) continue
        if (members[p, g] == 1) {
            if (!open) cursor = 0
            open = 1
            put_run(p, g)
            continue
        }
        rows[p] += open + 0
        open = 0
        for (b = 0; band_size[p, g, b] > 0; b++) put_band(p, g SUBSEP b)
    }
    rows[p] += open + 0
}

function place(p) {
    COLUMNS = 10
    find_before(p)
    make_runs(p)
    join_runs(p)
    make_groups(p)
    make_bands(p)
    tag_holders(p)
    put_groups(p, 0)
    rows_reached[p] = rows[p] + 0
    put_groups(p, 1)
}

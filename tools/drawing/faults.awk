# What a table has, and what is wrong with it: met[p, c] for the cells that were gone to, in the order found[p, 1] to
# found[p, founds[p]]; lost[p, c] for live cells that no holder reaches; chain[p, 1..chained[p]] for the free chain; and
# the faults as lines, with wrong[p, "h" h] and wrong[p, "c" c] where they are.

function fault(p, where, what) {
    wrong[p, where] = 1
    fault_line[p, ++faults[p]] = what
}

# Tells of an arrow that is not to a live cell, and counts one that is.
function end_of(p, to, where, who) {
    if (to == 0) return
    if (to > n[p]) fault(p, where, who " leads to cell " to ", and there are " n[p])
    else if (!live(p, to)) fault(p, where, who " leads to cell " to ", which has the count 0")
    else arrows[p, to]++
}

function go_along_free_chain(p,   c) {
    for (c = word[p, 1]; c != 0; c = next_of(p, c)) {
        if (c > n[p]) fault(p, "free", "the free chain leads to cell " c ", and there are " n[p])
        else if (on_chain[p, c]) fault(p, "c" c, "the free chain comes to cell " c " a second time")
        else if (live(p, c)) fault(p, "c" c, "the free chain comes to cell " c ", which has the count " count(p, c))
        if (c > n[p] || on_chain[p, c] || live(p, c)) { broken[p] = 1; return }
        on_chain[p, c] = 1
        chain[p, ++chained[p]] = c
    }
}

function go_over_arrows(p,   h, c) {
    for (h = 0; h < 64; h++) end_of(p, holder(p, h), "h" h, "holder " h)
    for (c = 1; c <= n[p]; c++) {
        if (!live(p, c)) continue
        if (type(p, c) > 1) fault(p, "c" c, "cell " c " has the type " type(p, c))
        end_of(p, arrow(p, c, 1), "c" c, "the element of cell " c)
        end_of(p, arrow(p, c, 2), "c" c, "the successor of cell " c)
    }
}

# Goes from a cell wherever arrows lead, elements before successors; `way` are the cells that are still open.
function go_from(p, c, is_lost,   way, top, took, to) {
    if (!live(p, c) || met[p, c]) return
    way[top = 1] = c
    while (top > 0) {
        c = way[top]
        if (!met[p, c]) { met[p, c] = 1; found[p, ++founds[p]] = c; if (is_lost) lost[p, c] = 1 }
        took = ++steps[p, c]
        if (took > 2) { met[p, c] = 2; top--; continue }
        to = arrow(p, c, took)
        if (!live(p, to)) continue
        if (!met[p, to]) way[++top] = to
        else if (met[p, to] == 1) fault(p, "c" c, "cell " c " leads back to cell " to ": a list would contain itself")
    }
}

function go_everywhere(p,   h, c) {
    for (h = 0; h < 64; h++) go_from(p, holder(p, h), 0)
    reached[p] = founds[p] + 0
    for (c = 1; c <= n[p]; c++) if (live(p, c) && !met[p, c] && arrows[p, c] + 0 == 0) go_from(p, c, 1)
    for (c = 1; c <= n[p]; c++) go_from(p, c, 1)
    for (c = 1; c <= n[p]; c++) {
        if (lost[p, c]) fault(p, "c" c, "cell " c " is neither free nor reached: count " count(p, c) ", and no holder leads to it")
        if (!live(p, c) && !on_chain[p, c]) {
            fault(p, "c" c, "cell " c " is neither free nor reached: count 0, and not on the free chain")
            stray[p, ++strays[p]] = c
        }
        if (live(p, c) && count(p, c) != arrows[p, c] + 0) fault(p, "c" c, "cell " c " has the count " count(p, c) ", and " arrows[p, c] + 0 " arrows end at it")
    }
}

function judge(p) {
    go_along_free_chain(p)
    go_over_arrows(p)
    go_everywhere(p)
}

# What differs between the two tables. Type and element of a cell that is free in both mean nothing and count apart.
function compare(   h, c, i, most, here) {
    if (word[1, 1] != word[2, 1]) { differs["free"] = 1; different++ }
    for (h = 0; h < 64; h++) if (holder(1, h) != holder(2, h)) { differs["h" h] = 1; different++ }
    most = n[1] > n[2] ? n[1] : n[2]
    for (c = 1; c <= most; c++) {
        here = 0
        for (i = 62; i <= 65; i++) {
            if (word[1, i + 4 * c] == word[2, i + 4 * c] && c <= n[1] && c <= n[2]) continue
            if (i < 64 && c <= n[1] && c <= n[2] && !live(1, c) && !live(2, c)) kept_differs++
            else { here = 1; different++ }
        }
        if (here) { differs["c" c] = 1; different_cells++ }
    }
}

# The words of one or two tables, from lines of bytes. p is the picture that a table is drawn in, 1 or 2; n[p] its
# cells, and word[p, i] its words.

BEGIN { CONVFMT = "%.0f" } # large numbers are whole numbers too

/^table / { name[++pictures] = substr($0, 7); bytes = 0; next }
{ for (i = 1; i <= NF; i++) byte[pictures, bytes++] = $i; size[pictures] = bytes }

function reject(p, why) {
    print "tools/picture: " name[p] " " why > "/dev/stderr"
    exit rejected = 2
}

# word 0, low byte first or last; the order that fits the size is the table's
function number(p, at, low_first) {
    if (low_first) return ((byte[p, at + 3] * 256 + byte[p, at + 2]) * 256 + byte[p, at + 1]) * 256 + byte[p, at]
    return ((byte[p, at] * 256 + byte[p, at + 1]) * 256 + byte[p, at + 2]) * 256 + byte[p, at + 3]
}

function take_words(p,   cells, order, i) {
    cells = (size[p] - 4 * 66) / 16
    if (cells < 1 || cells > 4000 || cells != int(cells))
        reject(p, "has " size[p] + 0 " bytes; a table of N cells, 1 to 4000, has 264 + 16 N")
    order = number(p, 0, 1) == cells
    if (!order && number(p, 0, 0) != cells)
        reject(p, "has " size[p] " bytes, which is a table of " cells " cells, but its word 0 says " number(p, 0, 1))
    n[p] = cells
    for (i = 0; i < size[p] / 4; i++) word[p, i] = number(p, 4 * i, order)
}

function holder(p, h) { return word[p, 2 + h] }
function type(p, c) { return word[p, 62 + 4 * c] }
function element(p, c) { return word[p, 63 + 4 * c] }
function count(p, c) { return word[p, 64 + 4 * c] }
function next_of(p, c) { return word[p, 65 + 4 * c] }
function live(p, c) { return c > 0 && c <= n[p] && count(p, c) > 0 }

# the two arrows out of a live cell: 1 to its element, if that is a list, and 2 to its successor; 0 is none
function arrow(p, c, which) { return which == 2 ? next_of(p, c) : type(p, c) == 1 ? element(p, c) : 0 }

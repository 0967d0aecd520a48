# The whole picture: a legend, then the tables side by side, and below each what is wrong with it.

function style() {
    print "  <style>"
    print "    text { font-family: Arial, Helvetica, sans-serif; font-size: 14px; fill: #1b1f24; text-anchor: middle; }"
    print "    .title { font-size: 17px; font-weight: bold; text-anchor: start; }  .start { text-anchor: start; }"
    print "    .small { font-size: 12px; }  .narrow, .tiny { font-size: 10px; }  .name { font-size: 12px; }  .title.small { font-size: 13px; }"
    print "    .number { font-size: 11px; text-anchor: start; fill: #57606a; }"
    print "    .one, .many { font-size: 11px; text-anchor: end; fill: #57606a; }  .many { font-weight: bold; fill: #9a4a00; }"
    print "    .paper { fill: #ffffff; }  .box { stroke: #57606a; stroke-width: 1.3; }  .cell { fill: #f6f8fa; }"
    print "    .holder { fill: #cfe8ff; stroke: #2f6fad; }  .shared { fill: #ffe08a; stroke: #b06f00; }  .free { fill: #d9f2dc; stroke: #4a9a5b; }"
    print "    .arrow { fill: none; stroke: #57606a; stroke-width: 1.4; marker-end: url(#tip); }  .thin { stroke-width: 1; }"
    print "    .into { stroke: #c77700; stroke-width: 1.8; marker-end: url(#tipInto); }  .tip { fill: #57606a; }  .tipInto { fill: #c77700; }"
    print "    .dot { fill: #57606a; }  .differs { stroke: #8a2be2; stroke-width: 3.5; }  .wrong { stroke: #d1242f; stroke-width: 3; stroke-dasharray: 6 3; }"
    print "    text.bad { fill: #d1242f; font-weight: bold; }  path.bad { stroke: #d1242f; }  .plain { font-size: 12px; text-anchor: start; }"
    print "    @media (prefers-color-scheme: dark) {"
    print "      text { fill: #e6edf3; }  .number, .one { fill: #adb5be; }  .many { fill: #ffb454; }  .paper { fill: #0d1117; }"
    print "      .box { stroke: #adb5be; }  .cell { fill: #21262d; }  .holder { fill: #0c3a5c; stroke: #58a6ff; }  .shared { fill: #5a4300; stroke: #e3a63b; }"
    print "      .free { fill: #12351d; stroke: #57b36a; }  .arrow { stroke: #adb5be; }  .into { stroke: #f0a84b; }  .tip, .dot { fill: #adb5be; }"
    print "      .tipInto { fill: #f0a84b; }  .differs { stroke: #c58bff; }  .wrong { stroke: #ff6b70; }  text.bad { fill: #ff7b80; }  path.bad { stroke: #ff6b70; }"
    print "    }"
    print "  </style>"
    print "  <defs>"
    print "    <marker id=\"tip\" viewBox=\"0 0 8 8\" refX=\"7\" refY=\"4\" markerWidth=\"8\" markerHeight=\"8\" markerUnits=\"userSpaceOnUse\" orient=\"auto\"><path class=\"tip\" d=\"M0,0 L8,4 L0,8 z\"/></marker>"
    print "    <marker id=\"tipInto\" viewBox=\"0 0 8 8\" refX=\"7\" refY=\"4\" markerWidth=\"9\" markerHeight=\"9\" markerUnits=\"userSpaceOnUse\" orient=\"auto\"><path class=\"tipInto\" d=\"M0,0 L8,4 L0,8 z\"/></marker>"
    print "  </defs>"
}

function swatch(x, class, words, round) {
    box("box " class, x, 16, 22, 14, round)
    say("plain", x + 28, 28, words)
    return x + 40 + 6.2 * length(words)
}

function legend(   x) {
    x = swatch(MARGIN, "holder", "holder", 7)
    x = swatch(x, "cell", "cell, its number and ×count", 3)
    x = swatch(x, "shared", "shared cell", 3)
    x = swatch(x, "free", "free cell", 3)
    if (faults[1] + faults[2] > 0) x = swatch(x, "cell wrong", "wrong", 3)
    if (pictures == 2) x = swatch(x, "cell differs", "differs", 3)
    return x
}

function words_of(k, what) { return k + 0 " " what (k == 1 ? "" : "s") }

function headline(p) {
    return name[p] ": " words_of(n[p], "cell") ", " reached[p] " reached, " chained[p] + 0 " free" (faults[p] > 0 ? ", " words_of(faults[p], "fault") : "")
}

function draw_faults(p, y,   k) {
    for (k = 1; k <= faults[p] && k <= FAULTS_SHOWN; k++) {
        say("plain bad", MARGIN, y, fault_line[p, k])
        y += 17
    }
    if (faults[p] > FAULTS_SHOWN) say("plain bad", MARGIN, y, "and " faults[p] - FAULTS_SHOWN " more")
    return y
}

# One table, x from the left. Its cells are drawn over the arrows, so that they can always be read.
function draw(p, x,   k, y) {
    shape(sprintf("<g transform=\"translate(%g,0)\">", x))
    say("title", MARGIN, 64, headline(p))
    y = TOP + rows[p] * ROW
    if (rows[p] > rows_reached[p]) {
        say("title small bad", MARGIN, TOP + rows_reached[p] * ROW - 8, "neither free nor reached")
        y += LOST_GAP
    }
    for (k = 1; k <= founds[p]; k++) {
        draw_successor(p, found[p, k])
        draw_element(p, found[p, k])
    }
    for (k = 1; k <= founds[p]; k++) draw_cell(p, found[p, k])
    for (k = 1; k <= founds[p]; k++) draw_holder(p, found[p, k])
    y = draw_free(p, y - (rows[p] > 0 ? 22 : 0))
    y = draw_faults(p, draw_astray(p, y))
    shape("</g>")
    if (y > height) height = y
}

function difference() {
    return words_of(different, "word") (different == 1 ? " differs" : " differ") ", in " words_of(different_cells, "cell") ", the holders and the head of the free chain" (kept_differs > 0 ? "; and " kept_differs " in what free cells keep, which means nothing" : "")
}

function print_all(wide,   k) {
    printf "<svg xmlns=\"http://www.w3.org/2000/svg\" viewBox=\"0 0 %d %d\" width=\"%d\" height=\"%d\" role=\"img\">\n", wide, height, wide, height
    print "  <title>" escaped(headline(1) (pictures == 2 ? "; " headline(2) : "")) "</title>"
    style()
    printf "  <rect class=\"paper\" width=\"%d\" height=\"%d\" rx=\"8\"/>\n", wide, height
    for (k = 1; k <= drawn; k++) print shapes[k]
    print "</svg>"
}

END {
    if (rejected) exit rejected
    MARGIN = 24; WIDE = 72; HIGH = 50; PITCH = 98; ROW = 112; TOP = 112; LOST_GAP = 34
    FREE_SHOWN = 10; FREE_WIDE = 44; FREE_PITCH = 58; FAULTS_SHOWN = 24
    for (p = 1; p <= pictures; p++) take_words(p)
    if (pictures == 2) compare()
    for (p = 1; p <= pictures; p++) { judge(p); place(p) }
    least = legend()
    for (p = 1; p <= pictures; p++) {
        draw(p, wide)
        wide += 2 * MARGIN + (columns[p] * PITCH < 560 ? 560 : columns[p] * PITCH)
    }
    if (pictures == 2) say("plain", MARGIN, height += 8, difference())
    height += 14
    print_all(wide > least ? wide : least)
}

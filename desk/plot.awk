# Draws the ratios that desk/bench printed as a plot: awk -f desk/plot.awk BENCH.TXT > docs/performance.svg
# For each kind of paper and number of events a bar for mark and one for key. Over the kinds that are held to the ratio a
# dashed line at the highest allowed, and the worst of theirs in bold; the others stand apart and are paler.
function text(x, y, size, anchor, colour, words) {
    printf "<text x=\"%.1f\" y=\"%.1f\" font-size=\"%d\" text-anchor=\"%s\" fill=\"%s\">", x, y, size, anchor, colour
    print words "</text>"
}
function box(x, y, w, h, colour) {
    printf "<rect x=\"%.1f\" y=\"%.1f\" width=\"%.1f\" height=\"%.1f\" fill=\"%s\"/>\n", x, y, w, h, colour
}
function line(from, to, y, style) {
    printf "<line x1=\"%.1f\" y1=\"%.1f\" x2=\"%.1f\" y2=\"%.1f\" %s/>\n", from, y, to, y, style
}
function bold(words) { return "<tspan font-weight=\"bold\">" words "</tspan>" }
function high(ratio) { return base - ratio * (base - top) / most }

BEGIN {
    width = 805; height = 330; left = 40; top = 50; base = 270; bar = 1.5
    wide = 17; pair = 2 * wide + 7; group = 3 * pair + 22; apart = 35
    ink = "#333333"; paper = "#ffffff"; colour["mark"] = "#2b6ca3"; colour["key"] = "#e08a2e"; second["key"] = 1
    limit = "#b02020"; pale["mark"] = "#a3c1da"; pale["key"] = "#f3cfa6"
}
$1 == "cost" {
    n++
    kind[n] = $2; events[n] = $3; routine[n] = $4; ratio[n] = $7
    if (!($2 in place)) { place[$2] = kinds++; last = "" }
    if ($3 != last) { at[n] = last == "" ? 0 : at[n - 1] + 1; last = $3 } else at[n] = at[n - 1]
    if ($7 > most) most = $7
}
$1 == "bar" && $2 == "ratio" { worst = $3; bar = $4; for (i = 6; i <= NF; i++) held[$i] = 1 }
END {
    if (most < bar) most = bar
    most *= 1.08
    printf "<svg xmlns=\"http://www.w3.org/2000/svg\" width=\"%d\" height=\"%d\" ", width, height
    printf "viewBox=\"0 0 %d %d\" font-family=\"sans-serif\">\n", width, height
    box(0, 0, width, height, paper)
    text(left, 18, 13, "start", ink, "Time an event, as a multiple of plain C")
    box(left, 27, 10, 10, colour["mark"]); text(left + 15, 36, 11, "start", ink, "mark")
    box(left + 60, 27, 10, 10, colour["key"]); text(left + 75, 36, 11, "start", ink, "key")
    for (i = 0; i <= most; i += most > 12 ? 2 : most > 3 ? 1 : 0.5) {
        line(left, width - 10, high(i), "stroke=\"#dddddd\"")
        text(left - 6, high(i) + 4, 10, "end", ink, i)
    }
    for (i = 1; i <= n; i++) {
        free = !(kind[i] in held)
        x = left + 10 + place[kind[i]] * group + at[i] * pair + free * apart
        b = x + second[routine[i]] * (wide + 1)
        label = !free && ratio[i] == worst ? bold(ratio[i]) : sprintf("%.1f", ratio[i])
        box(b, high(ratio[i]), wide, base - high(ratio[i]), free ? pale[routine[i]] : colour[routine[i]])
        box(b - 1, high(ratio[i]) - 10, wide + 2, 9, paper)
        text(b + wide / 2, high(ratio[i]) - 3, 8, "middle", ink, label)
        if (!free && !from) from = b - 8
        if (!free) to = b + wide + 8
        if (second[routine[i]]) continue
        text(x + wide, base + 14, 10, "middle", ink, events[i])
        if (at[i] != 1) continue
        text(x + wide, base + 32, 12, "middle", ink, kind[i])
        if (free) text(x + wide, base + 46, 10, "middle", limit, "no limit")
    }
    line(from, to, high(bar), "stroke=\"" limit "\" stroke-dasharray=\"6 4\"")
    box(to + 3, high(bar) - 6, 50, 12, paper)
    text(to + 4, high(bar) + 4, 10, "start", limit, "at most " bar + 0)
    text(left, base + 52, 10, "start", ink, "kinds of paper; above their names the events in a paper")
    print "</svg>"
}

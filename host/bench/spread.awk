# Rows of several runs of compare, each with the word ratio or floor before it, to one table, a line for each call: medians over the runs, of ratios with
# the least and the greatest. The last line names every ratio of a call beside itself that is above 1.05, and the floor farthest from 1.
function insert(list, n, x,    i) {
    for (i = n; i > 0 && list[i] > x; i--) list[i + 1] = list[i]
    list[i + 1] = x
}
function sorted(what, key, list,    i) {
    for (i = 1; i <= number[what, key]; i++) insert(list, i - 1, value[what, key, i])
    return number[what, key]
}
function middle(what, key,    list, n) {
    n = sorted(what, key, list)
    return n % 2 ? list[(n + 1) / 2] : (list[n / 2] + list[n / 2 + 1]) / 2
}
function spread(what, key, form,    list, n) {
    n = sorted(what, key, list)
    return n ? sprintf(form " (" form " to " form ")", middle(what, key), list[1], list[n]) : "-"
}
function keep(what, key, x) { value[what, key, ++number[what, key]] = x + 0 }

function cell(key) {
    return sprintf("%.0f, %.0f; %s; %s", middle("before", key), middle("now", key), spread("ratio", key, "%.2f"), spread("floor", key, "%.2f"))
}
# What is seen farthest from 1, among calls that stand beside themselves.
function watch(key,    off) {
    if (!number["floor", key]) return
    if (middle("ratio", key) > 1.05) above = above sprintf("%s%s %.3f", above ? ", " : "", name_of[key], middle("ratio", key))
    if (middle("ratio", key) > most) { most = middle("ratio", key); at = name_of[key] }
    off = middle("floor", key) - 1
    if ((off < 0 ? -off : off) > (far < 0 ? -far : far)) { far = off; where = name_of[key] }
}

function thousands(n) { return n < 1000 ? n : sprintf("%d,%03d", n / 1000, n % 1000) }

BEGIN { FS = " *[|] *" }
$2 == "call" || $2 ~ /^-/ { next }
{ key = $2 SUBSEP $3; name_of[key] = $2 " at " thousands($3) " slots" }
$1 == "ratio" {
    if (!($2 in has_call)) { has_call[$2]; calls[++rows] = $2 }
    if (!($3 in has_size)) { has_size[$3]; sizes[++columns] = $3 }
    keep("before", key, $4)
    keep("now", key, $5)
    keep("ratio", key, $6)
}
$1 == "floor" { keep("floor", key, $6) }
END {
    head = "| call"
    rule = "|---"
    for (j = 1; j <= columns; j++) { head = head " | " thousands(sizes[j]) " slots"; rule = rule "|--:" }
    print head " |\n" rule "|"
    for (i = 1; i <= rows; i++) {
        line = "| " calls[i]
        for (j = 1; j <= columns; j++) { key = calls[i] SUBSEP sizes[j]; line = line " | " cell(key); watch(key) }
        print line " |"
    }
    printf "\nAbove 1.05 of its time before: %s. ", above ? above : sprintf("none; the greatest is %.3f, %s", most, at)
    printf "Of the floors %.3f is farthest from 1, %s.\n", 1 + far, where
}

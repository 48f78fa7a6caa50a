# Random streams and queries, and the text of their joins. For each case it writes the files N.query, N.left, N.right and N.wanted to
# `folder`. A query may have a quiet number, of which the join of this script knows nothing, since no text depends on it. A condition
# is a tree that is kept in prefix order: `words` are what the query says, and holds() evaluates them.

function draw(below) {
    state = (state * 16807) % 2147483647
    return state % below
}

# A text as it is compared, and as a CSV field.
function text_at(number) { return texts[number] }
function field_of(text,    quoted) {
    if (text !~ /[",\r\n]/) return text
    quoted = text
    gsub(/"/, "\"\"", quoted)
    return "\"" quoted "\""
}

function column(side) { return side "." (draw(2) ? "k" : "q") }

# A condition, at most this deep, in the query's words; its tree goes behind `size`.
function condition(depth,    kind, at, first) {
    kind = depth > 0 ? draw(8) : 3 + draw(5)
    at = ++size
    if (kind == 0) { node[at] = "not"; return "not (" condition(depth - 1) ")" }
    if (kind <= 2) {
        node[at] = kind == 1 ? "and" : "or"
        first = condition(depth - 1)
        return "(" first " " node[at] " " condition(depth - 1) ")"
    }
    if (kind == 3) {
        node[at] = "within"
        first_of[at] = column("l"); second_of[at] = column("r"); by[at] = draw(3)
        return first_of[at] " within " by[at] " of " second_of[at]
    }
    by[at] = signs[draw(6)]
    if (kind == 7) {
        node[at] = "sum"
        first_of[at] = column("l"); second_of[at] = column("r"); more[at] = draw(8) - 2
        return first_of[at] " + " second_of[at] " " by[at] " " more[at]
    }
    node[at] = "compare"
    if (kind == 4) { first_of[at] = "l.t"; second_of[at] = "r.t" }
    else if (kind == 5) { first_of[at] = column("r"); second_of[at] = column("l") }
    else { first_of[at] = column("l"); second_of[at] = column("r") }
    return first_of[at] " " by[at] " " second_of[at]
}

function value(name, left, right,    row, side) {
    side = substr(name, 1, 1)
    row = side == "l" ? left : right
    if (name ~ /k$/) return keys[side, row] + 0
    if (name ~ /q$/) return counts[side, row] + 0
    return plain[side, row] ""
}

# Whether the tree from `next_node` on holds for two rows; `next_node` is then behind it.
function holds(left, right,    at, a, b) {
    at = next_node++
    if (node[at] == "not") return !holds(left, right)
    if (node[at] == "and" || node[at] == "or") {
        a = holds(left, right)
        b = holds(left, right)
        return node[at] == "and" ? a && b : a || b
    }
    a = value(first_of[at], left, right)
    b = value(second_of[at], left, right)
    if (node[at] == "sum") { a += b; b = more[at] }
    if (node[at] == "within") return (a > b ? a - b : b - a) <= by[at]
    if (by[at] == "=") return a == b
    if (by[at] == "!=") return a != b
    if (by[at] == "<") return a < b
    if (by[at] == "<=") return a <= b
    if (by[at] == ">") return a > b
    return a >= b
}

function window(side,    kind) {
    kind = draw(2) ? "rows" : "time"
    kinds[side] = kind
    sizes[side] = 1 + draw(kind == "rows" ? 6 : 12)
    return kind " " sizes[side]
}

# A line with a quiet number, or none.
function quiet() { return draw(2) ? "" : "quiet " draw(5) "\n" }

# Rows as they are read, each late by at most the slack. They are kept in order of time, a row behind all that aren't later.
function stream(side, file,    rows, at, place, latest, time, key, count, text, written) {
    rows = draw(20)
    latest = draw(5) - 3
    for (at = 0; at < rows; at++) {
        latest += draw(4)
        time = latest - draw(slack + 1)
        key = draw(4) - 1
        count = draw(5)
        text = text_at(draw(text_count))
        written = time "," key "," count "," field_of(text)
        print written > file
        for (place = at; place > 0 && times[side, place - 1] > time; place--) {
            times[side, place] = times[side, place - 1]
            keys[side, place] = keys[side, place - 1]
            counts[side, place] = counts[side, place - 1]
            plain[side, place] = plain[side, place - 1]
            line[side, place] = line[side, place - 1]
        }
        times[side, place] = time
        keys[side, place] = key
        counts[side, place] = count
        plain[side, place] = text
        line[side, place] = written
    }
    printf "" > file
    close(file)
    return rows
}

# Rows that are too old when a row comes at this time.
function expire(side, now) {
    if (kinds[side] == "time")
        while (oldest[side] < newest[side] && now - times[side, oldest[side]] >= sizes[side]) oldest[side]++
}

function arrive(side, at, file,    other, row, left, right) {
    expire("l", times[side, at])
    expire("r", times[side, at])
    other = side == "l" ? "r" : "l"
    for (row = oldest[other]; row < newest[other]; row++) {
        left = side == "l" ? at : row
        right = side == "l" ? row : at
        next_node = 1
        if (holds(left, right)) print line["l", left] "," line["r", right] > file
    }
    newest[side] = at + 1
    if (kinds[side] == "rows" && newest[side] - oldest[side] > sizes[side]) oldest[side]++
}

function join(lefts, rights, file,    left, right) {
    oldest["l"] = oldest["r"] = newest["l"] = newest["r"] = 0
    left = right = 0
    while (left < lefts || right < rights) {
        if (right == rights || (left < lefts && times["l", left] <= times["r", right])) arrive("l", left++, file)
        else arrive("r", right++, file)
    }
    printf "" > file
    close(file)
}

BEGIN {
    state = seed
    for (at = 0; at < 10; at++) draw(2)
    split("= != < <= > >=", parts, " ")
    for (at = 1; at <= 6; at++) signs[at - 1] = parts[at]
    text_count = split("a|b|a,b|say \"x\"||two\nlines|\303\251|A|a b|'", parts, "|")
    for (at = 1; at <= text_count; at++) texts[at - 1] = parts[at]
    for (number = 0; number < cases; number++) {
        name = folder "/" number
        size = 0
        columns = "(ts int, k int, q int, t text)"
        left_window = window("l")
        right_window = window("r")
        slack = draw(2) ? draw(9) : 0
        slack_line = slack || draw(2) ? "slack " slack "\n" : ""
        quiet_line = quiet()
        printf "left %s right %s\nwindow left %s\nwindow right %s\n%s%son %s\n", columns, columns, left_window, right_window, slack_line, quiet_line, condition(3) > (name ".query")
        close(name ".query")
        lefts = stream("l", name ".left")
        rights = stream("r", name ".right")
        join(lefts, rights, name ".wanted")
    }
}

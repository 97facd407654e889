# Prints a day in words: each line of the sheet (file `sheet`) with its answer (standard input), both as docs/SHEET.md says, and a record by the table
# of its columns (file `record`, which is docs/RECORD.md).
# Positions are metres north, east and up of the origin, in a record down as its columns are; the time is the sum of the ticks' dt since the last opening.

BEGIN {
    read_columns()
    split("opening tick report command points zones totals record", kind_name)
    kind_name[10] = "opening on a raised pad"
    split("Disarmed Armed Takeoff Loiter Mission Land Rtl Terminated", mode_name)
    split("Arm RequestTakeoff RequestMission RequestLoiter RequestRtl RequestLand RequestDisarm ReachedAltitude ReachedHome Touchdown Failsafe Terminate", event_name)
    split("SensorsHealthy EstimatorConverged CalibrationPresent GeofenceLoaded BatteryOk FailsafeConfigured EstimatorInnovation GnssAgreement ParamsFromNvm GeofenceSane ThresholdsOrdered SensorsFresh EscTelemetry BatteryTakeoffMargin RangefinderPlausible CalibrationFresh RcLink GcsLink NoFailsafeLatched MotorsHealthy InsideGeofence", check_name)
    split("no opening yet;not a sheet line;no such kind;wrong number of fields;a number out of its range;a report is due first;no report is due;a point is not admissible", refusal_text, ";")
    printf "%4s  %9s  %-64s    %s\n", "line", "time", "asked", "answered (* a new mode)"
}

function fail(text) {
    print "words.awk: " text > "/dev/stderr"
    bad = 1
    exit
}

# Reads the table: row r has the columns first[r] to last[r], how_many[r] names, which are names[r, k], and the type type[r]; of[NAME] is the column of a
# row that has one. There must be 136 columns, one behind the other.
function read_columns(    line, cell, inside, text, n, k) {
    while ((getline line < record) == 1) {
        if (line == "| columns | name | type | meaning | an opening sets |") inside = 1
        if (!inside || line !~ /^\| [0-9]/) continue
        split(line, cell, / *\| */)
        split(cell[2], n, / to /)
        rows++
        first[rows] = n[1] + 0
        last[rows] = (2 in n ? n[2] : n[1]) + 0
        type[rows] = cell[4]
        how_many[rows] = split(cell[3], text, /, /)
        for (k = 1; k <= how_many[rows]; k++) names[rows, k] = text[k]
        if (first[rows] != columns + 1) fail(record ": column " columns + 1 " does not stand where it should: " line)
        if (last[rows] < first[rows] || (last[rows] - first[rows] + 1) % how_many[rows]) fail(record ": the names do not fit the columns: " line)
        if (type[rows] !~ /^(number|flag|float|mask|mode)$/) fail(record ": no such type: " line)
        columns = last[rows]
        if (how_many[rows] == 1 && last[rows] == first[rows]) of[text[1]] = columns
    }
    if (columns != 136) fail(record ": the table has " columns + 0 " columns and not 136")
}

# The value of a float's bits.
function value(bits,    sign, exponent, fraction) {
    sign = bits >= 2147483648 ? -1 : 1
    if (sign < 0) bits -= 2147483648
    exponent = int(bits / 8388608)
    fraction = bits - exponent * 8388608
    if (exponent == 255) return fraction ? "NaN" : sign < 0 ? "-inf" : "inf"
    return sign * (exponent ? (1 + fraction / 8388608) * 2 ^ (exponent - 127) : fraction / 8388608 * 2 ^ -126)
}

# The same as text.
function float(bits,    x) {
    x = value(bits)
    return x ~ /[fN]/ ? x : sprintf("%.4g", x + 0 == 0 ? 0 : x)
}

# A coordinate that counts down, as text that counts up.
function up(bits) { return float(bits < 2147483648 ? bits + 2147483648 : bits - 2147483648) }

function place(n, at) { return float(n[at]) " N " float(n[at + 1]) " E " up(n[at + 2]) " up" }

function speed(n, at) { return sprintf("%.3g m/s", sqrt(value(n[at]) ^ 2 + value(n[at + 1]) ^ 2 + value(n[at + 2]) ^ 2)) }

# The numbers of a line as n[1], n[2], ..., and how many they are.
function fields(line, n,    count, k) {
    count = int(length(line) / 11)
    for (k = 1; k <= count; k++) n[k] = substr(line, 11 * k - 10, 11) + 0
    return count
}

function also(it_is, text) { return it_is ? ", " text : "" }

function is_opening(kind) { return kind == 1 || kind == 10 }

function asked(line,    n, count, text, k) {
    count = fields(line, n)
    text = kind_name[n[1]] ": "
    if (is_opening(n[1])) return text "home " place(n, 2) ", fence " float(n[5]) " m, cruise " float(n[6]) " m, low " float(n[7]) " V"
    if (n[1] == 2) {
        text = text place(n, 3) ", " speed(n, 6) ", tilt " float(n[9]) also(n[16], float(n[17]) " V") (n[16] == 2 ? " " float(n[18]) " A" : "")
        return text also(n[12], "navigation compromised") also(n[13], "GNSS diverged") also(n[14], "motor failed")
    }
    if (n[1] == 3) return text (n[2] ? "a motor failed" : "no motor failed")
    if (n[1] == 4) return text event_name[n[2] + 1] also(!n[3], "not level") also(!n[4], "throttle not low")
    if (n[1] == 7) return text "since the opening"
    if (n[1] == 8) return text "the state as a line of kind 9"
    for (k = 3; k <= count; k += n[1] == 5 ? 3 : 4)
        text = text (k > 3 ? "; " : "") (n[1] == 5 ? place(n, k) : float(n[k + 3]) " m around " float(n[k]) " N " float(n[k + 1]) " E")
    return text (n[2] ? "" : "none")
}

# A line that was not understood: its numbers, or its bytes where they are no numbers.
function as_it_is(line, refusal) {
    gsub(/[^ -~]/, "?", line)
    if (refusal != 2) gsub(/ +/, " ", line)
    return "\"" substr(line, 1, 46) (length(line) > 46 ? ".." : "") "\""
}

# The nine totals, modes without a tick left out.
function totals(a,    k, text) {
    for (k = 1; k <= 8; k++) if (a[10 + k]) text = text (text ? ", " : " that ended in ") mode_name[k] " " a[10 + k]
    return (text ? "ticks" text : "no ticks") "; changes " a[19]
}

# The numbers of the checks in a mask.
function checks(mask,    k, text) {
    for (k = 0; k < 21; k++) {
        if (mask % 2) text = text (text == "" ? "" : "+") k
        mask = int(mask / 2)
    }
    return text == "" ? "none" : text
}

function column(kind, number) {
    if (kind == "float") return float(number)
    if (kind == "flag") return number ? "yes" : "no"
    if (kind == "mask") return checks(number)
    if (kind == "mode") return mode_name[number + 1]
    return number
}

# One more item of a list that is printed in lines.
function item(text) {
    if (length(row) + length(text) > 150) {
        print "                 " row ","
        row = ""
    }
    row = row (row == "" ? "" : ", ") text
}

# The record behind an answer's ten numbers, in lines of its own. Names that stand over again begin with one word, and as many places are shown as its column
# says: of `point x`, `point y` and `point z` as many as `point count`.
function show_record(a,    r, k, word, name, places, at, text) {
    row = ""
    for (r = 1; r <= rows; r++) {
        places = (last[r] - first[r] + 1) / how_many[r]
        if (places == 1) {
            for (k = 1; k <= how_many[r]; k++) item(names[r, k] " " column(type[r], a[10 + first[r] + k - 1]))
            continue
        }
        word = names[r, 1]
        sub(/ .*/, "", word)
        if (!((word " count") in of)) fail(record ": no column " word " count")
        if (a[10 + of[word " count"]] < places) places = a[10 + of[word " count"]]
        for (at = 1; at <= places; at++) {
            text = word " " at ":"
            for (k = 1; k <= how_many[r]; k++) {
                name = names[r, k]
                sub(/^[^ ]* /, "", name)
                text = text " " name " " column(type[r], a[10 + first[r] + (at - 1) * how_many[r] + k - 1])
            }
            item(text)
        }
    }
    print "                 " row
}

function answered(a, count, tick,    text) {
    text = mode_name[a[2] + 1]
    if (a[1]) return text "; refused, " a[1] ": " refusal_text[a[1]]
    if (tick) text = text (a[4] ? ", motors off" : ": fly to " place(a, 6)) also(a[3], "landing") also(a[5], "rearm")
    if (a[9]) text = text "; outstanding " a[9] ", first " check_name[a[10] + 1]
    if (count == 19) text = text "; " totals(a)
    if (count > 19) text = text "; a record:"
    return text
}

{
    if ((getline line < sheet) != 1) { print "more answers than lines" > "/dev/stderr"; bad = 1; exit }
    width = fields($0, a)
    understood = a[1] < 2 || a[1] > 5
    kind = understood ? substr(line, 1, 11) + 0 : 0
    if (is_opening(kind) && !a[1]) time = 0
    if (kind == 2 && !a[1]) time += value(substr(line, 12, 11) + 0)
    printf "%4d  %7.3f s  %-64s  %s %s\n", NR, time, understood ? asked(line) : as_it_is(line, a[1]), a[2] == mode ? " " : "*", answered(a, width, kind == 2)
    if (width > 19) {
        if (width != 10 + columns) fail("an answer of " width " columns")
        show_record(a)
    }
    mode = a[2]
}

END {
    if (!bad && (getline line < sheet) == 1) { print "fewer answers than lines" > "/dev/stderr"; bad = 1 }
    exit bad
}

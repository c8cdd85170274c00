# awk -f texts.awk -f refusals.awk -- LINE LENGTH_UNIT SPEED_UNIT STEP: says in sentences what a
# line of Report means that refuses a run for a table's text or for its size, and what an audit
# found, as docs/GUIDE.md does. Of a table it looks at the header and at the line that is named,
# and no further than at its first 4,000,000 bytes and 300,000 lines, so that it takes a second at
# most. With `directions` in place of the line it says which rows of link.csv aren't one link in
# DTALite.

BEGIN {
    MOST = 10000
    LONGEST = 65536
    PART = 4000000
    LINES = 300000
    count = split(ARGV[1], word, " ")
    if (word[1] == "size:") of_size()
    else if (word[1] == "directions") of_directions("link.csv")
    else if (word[1] == "audit:") of_audit(word[2] ".csv", word[4], word[5])
    else if (word[4] ~ /^E[0-9]+$/) of_table(word[1], word[3] + 0, word[4], word[6])
    exit
}

function say(text) { print "dta: " text }

# ---- what isn't refused

# The column dir_flag of DTALite isn't read, and may say that a row isn't one link as it is written.
# A link table has a million rows at most.
function of_directions(file,    line, k, value, others, first) {
    PART = 268435456
    LINES = 2000000
    if (!next_record(file)) return
    columns = fields_of(record, header)
    k = column_of("dir_flag")
    for (line = 2; k && next_record(file); line++) {
        if (index(record, "\"")) fields_of(record, row)
        else split(record, row, ",")
        value = trim(row[k])
        if (value ~ /^\+?(1(\.0*)?)?$/) continue
        if (!others++) first = "line " line ": " quoted(value)
    }
    if (!others) return
    say("link.csv has the column dir_flag, which isn't read, and in " others " rows it isn't 1:")
    say("first in " first ". Each row is one link from its from_node_id to its to_node_id.")
    say("In DTALite 0 is a link both ways and -1 one the other way: write a row for each way.")
}

# ---- refusals that aren't of a table's text

function of_size() {
    if (word[2] == "table") {
        say(word[3] ".csv has more than " word[5] " bytes, the most that a table may have.")
    } else if (word[2] == "links") {
        say(word[3] " links times " word[5] " steps of the horizon are more than " word[7] ".")
        say("Choose a shorter --horizon, or a longer --step and so fewer steps.")
        if (word[7] + 0 < 67108864) say("An assign for each scale has a higher limit than a sweep.")
    } else if (word[2] == "skim") {
        say("The pairs of zones times the starts of --at are " word[3] ", more than " word[5] ".")
        say("Give fewer starts to each skim.")
    } else {
        say("With line " word[4] " of demand.csv there are " word[6] " vehicles, more than " \
            word[8] ".")
        say("Take a part of the area or of the period.")
    }
}

function of_audit(file, line, column) {
    if (column == "-")
        say("The audit found that rows are missing in " file " from line " line " on.")
    else say("The audit computes another " column " than line " line " of " file " has.")
    say("This is the first difference; there may be more behind it.")
}

# ---- the text of a table

# Whether a quoted field is still open at the end of a line; `open` says it of its beginning.
function is_open(line, open) {
    if (open) line = "\"" line
    gsub(/""/, "", line)
    gsub(/(^|,)"[^"]*"/, ",", line)
    return line ~ /(^|,)"/
}

# What prints the part of a file that is looked at, without NULs and with lines cut off.
function part_of(file) {
    return "{ head -c " PART " " file " | tr '\\000' '\\001' | cut -b 1-" LONGEST "; } 2>/dev/null"
}

# Takes the next record of the file to `record`, from the line of the file that `first_line` says
# to the one that `last_line` says. Of a very long record the rest is left out. Where a line is cut
# off that has quotes nobody knows where its record ends, and there is no next one.
function next_record(file,    line, open) {
    record = ""
    if (file != begun) {
        begun = file
        part = part_of(file)
    }
    while (!is_lost && last_line < LINES && (part | getline line) > 0) {
        last_line++
        sub(/\r$/, "", line)
        if (line == "" && !open) continue
        if (!open) first_line = last_line
        if (length(record) < MOST) record = open ? record " " line : line
        if (length(record) > MOST) record = substr(record, 1, MOST)
        is_lost = length(line) == LONGEST && index(line, "\"")
        open = index(line, "\"") || open ? is_open(line, open) : 0
        if (!open) return 1
    }
    return record != ""
}

# Splits a record into fields, and returns how many there are.
function fields_of(text, fields,    count, end) {
    for (;;) {
        count++
        if (text ~ /^"/) {
            match(text, /^"([^"]|"")*"?/)
            fields[count] = trim(substr(text, 2, RLENGTH - 2))
            gsub(/""/, "\"", fields[count])
            text = substr(text, RLENGTH + 1)
            end = index(text, ",")
        } else {
            end = index(text, ",")
            fields[count] = trim(end ? substr(text, 1, end - 1) : text)
        }
        if (!end) return count
        text = substr(text, end + 1)
    }
}

function column_of(name,    k) {
    for (k = 1; k <= columns; k++) if (header[k] == name) return k
    return 0
}

# What the row at a line has in a column.
function field(name,    k) {
    k = column_of(name)
    return k && k <= fields ? row[k] : ""
}

# The line of the first record that has these two identifiers in these columns, before `most`.
function line_with(name, id, name_2, id_2, most,    line, found, k, k_2) {
    k = column_of(name)
    k_2 = column_of(name_2)
    id = plain(id)
    id_2 = plain(id_2)
    for (line = 1; !found && line < most && next_record(file); line++) {
        if (line == 1 || !index(record, id)) continue
        if (index(record, "\"")) fields_of(record, other)
        else split(record, other, ",")
        if (plain(trim(other[k])) == id && plain(trim(other[k_2])) == id_2) found = line
    }
    return found
}

# An identifier without the zeros that change nothing; that of 0 is a point.
function plain(id) {
    sub(/\.0+$/, "", id)
    sub(/^0+/, "", id)
    return id == "" ? "." : id
}

# ---- a table that isn't accepted

function of_table(table, line, code, column,    at) {
    file = table ".csv"
    where = "Line " line " of " file
    if (!is_text_table()) return
    for (at = 1; at <= line && next_record(file); at++) {
        text = record
        if (at == 1) columns = fields_of(record, header)
    }
    if (at <= line && code !~ /^E1[23]?$/) {
        say(where " lies far behind, where these sentences don't look: " fault_of(code, column) ".")
        return
    }
    fields = fields_of(text, row)
    value = field(column)
    tell_place(line)
    if (code == "E1") of_header(column)
    else if (code == "E2") of_record()
    else if (code == "E3") of_empty_field(column)
    else if (code == "E4") of_number(column)
    else if (code == "E5") say(has_value(column) ", which is out of range: " range_of(column) ".")
    else if (code == "E6") of_twin(column, line)
    else if (code ~ /^E[789]$/) of_unknown(code, column)
    else of_other(code, line, column)
}

# What a code says of a line that isn't looked at.
function fault_of(code, column) {
    if (code == "E2") return "it has more or fewer fields than the header, or isn't UTF-8"
    if (code == "E3") return "it has no " column
    if (code == "E4") return "its " column " is not " form_of(column)
    if (code == "E5") return "its " column " is out of range: " range_of(column)
    if (code == "E6") return "an earlier line has the same " column
    if (code == "E7") return "its " column " names a node that isn't in node.csv"
    if (code == "E8") return "its " column " names a link that isn't in link.csv"
    if (code == "E9") return "its " column " is no link of the turn's node"
    if (code == "E10") return "it is a link of both directions"
    return "its link takes more than 10000 steps"
}

# Says where an editor has the line, where it counts in another way.
function tell_place(line) {
    if (text == record && last_line > first_line)
        say(where " goes over the lines " first_line " to " last_line " of the file: is a double " \
            "quote opened there and not closed?")
    else if (text == record && first_line != line)
        say(where " is line " first_line " in an editor: here empty lines aren't counted.")
}

function has_value(column) { return where " has " quoted(value) " as its " column }

# Whether the file can be looked at as lines; what stands in the way is said.
function is_text_table(    first) {
    if ((part_of(file) | getline first) <= 0) {
        say(file " is empty.")
        return 0
    }
    close(part_of(file))
    if (first ~ /^(\377\376|\376\377)/) {
        say(file " is UTF-16 text, which spreadsheets call Unicode.")
        say("Save it as CSV in UTF-8.")
        return 0
    }
    return 1
}

function of_header(column,    k, name) {
    say(file " has no column " column ". Its first line is " quoted(text) ".")
    if (text !~ /,/ && text ~ /[;\t|]/) {
        say("Its columns are not separated by commas.")
        say("Save it as CSV with commas between the columns and with decimal points.")
    }
    for (k = 1; k <= columns; k++) {
        name = tolower(header[k])
        gsub(/[ _-]/, "", name)
        sub(/^\357\273\277/, "", name)
        if (name == simple(column)) say("Is its column " quoted(header[k]) " meant? Names are in " \
            "small letters, as " column ".")
    }
}

function simple(name) {
    gsub(/_/, "", name)
    return name
}

function is_blank_row(record) { return record ~ /^[, \t"]*$/ }

function of_record() {
    if (is_other_text(text)) {
        say(where " has a letter that isn't UTF-8: the file may be Latin-1 or Windows text.")
        say("Save it as UTF-8, or: iconv -f WINDOWS-1252 -t UTF-8 " file " >new.csv")
        return
    }
    if (text ~ /\001/)
        say(where " has NULs, bytes that are no text, as a power cut may leave them.")
    else if (length(text) < MOST)
        say(where " has " fields " fields, and the header has " columns ".")
    else say(where " has " MOST " bytes or more, and the header has " columns " fields.")
    if (is_blank_row(text)) of_blank_rows()
    else if (text !~ /,/ && text ~ /[;\t|]/)
        say("The line isn't separated by commas, as the header is.")
    else if (fields > columns) {
        if (text ~ /[0-9],[0-9]/)
            say("A decimal comma makes two fields of one: write 0.5, not 0,5.")
        say("A name with a comma in it has to stand in double quotes.")
    }
}

# Rows of commas alone, which spreadsheets leave behind; the first of them is `text`.
function of_blank_rows(    count) {
    for (count = 1; next_record(file); ) count += is_blank_row(record)
    say("The line has nothing but commas, as spreadsheets leave them below a table.")
    say("Delete it" (count > 1 ? " and the " count - 1 " others like it." : "."))
}

function of_empty_field(column) {
    say(where " has no " column ", which each row needs.")
    if (is_blank_row(text)) of_blank_rows()
}

function of_number(column) {
    say(has_value(column) ", which is not " form_of(column) ".")
    if (column == "capacity_by_step")
        say("A part is a step, a colon and a number; there is no blank, and no ; at the end.")
    else if (column ~ /_ids$|^entry_steps$/)
        say("The list is whole numbers joined by ; without blanks.")
    else if (value ~ /^[+-]?[0-9]*,[0-9]+$/)
        say("A comma can't stand in a number: write " pointed(value) \
            (value ~ /,[0-9][0-9][0-9]$/ ? ", or no comma where it parts thousands." : "."))
    else if (value ~ /^[0-9.]+[eE][+-]?[0-9]+$/)
        say("A spreadsheet may have shortened it: give the column the format of whole numbers.")
    else if (value ~ /^[0-9.]+ *[a-zA-Z%\/]/)
        say("No unit stands in a field: --length-unit and --speed-unit say it for all rows.")
    else if (value ~ /^[0-9]+[ ',_.][0-9]+[ ',_.]?[0-9]/)
        say("Nothing stands between thousands: write 1200.5, not 1 200.5.")
}

function pointed(value) {
    sub(/,/, ".", value)
    return value
}

function form_of(column) {
    if (column == "capacity_by_step") return "a list as 0:1800;600:900"
    if (column ~ /^(length|lanes|free_speed|capacity|penalty|volume)$/) return "a number as 0.5"
    return "a whole number of digits alone"
}

function range_of(column) {
    if (column == "capacity_by_step")
        return "the first step is 0, the steps rise up to 86400, there are at most 64 parts, and " \
            "no capacity is below 0"
    if (column == "lanes") return "it goes from 0 to 100"
    if (column == "free_speed") return "it is above 0; an empty field means 50 km/h"
    if (column == "penalty") return "it goes from 0 to 36000 seconds"
    if (column ~ /^(length|capacity|volume)$/) return "it goes from 0 to 1000000000"
    if (column == "zone_id") return "it is a whole number from 0 on; an empty field means no zone"
    if (column == "travel_steps") return "it goes from 1 to 4294967295"
    return "it is a whole number from 0 to 9223372036854775807"
}

function of_twin(column, line,    name, earlier) {
    name = column == "ob_link_id" ? "ib_link_id" : column
    close(part_of(file))
    is_lost = last_line = 0
    earlier = line_with(column, value, name, field(name), line)
    say(where " has the same " (name == column ? column : "two links") " as " \
        (earlier ? "line " earlier ": " : "an earlier line: ") value ".")
}

function of_unknown(code, column) {
    if (code == "E7") say(where " names node " value " (" column "), which isn't in node.csv.")
    else if (code == "E8") say(where " names link " value " (" column "), which isn't in link.csv.")
    else say(where " is not a turn: link " value " doesn't " \
        (column == "ib_link_id" ? "end" : "begin") " at node " field("node_id") ".")
}

function of_other(code, line, column) {
    if (code == "E10") say(where " is a link of both directions: write a link for each direction.")
    else if (code == "E11") of_slow_link()
    else if (code == "E12") say(file " has more rows than the program takes.")
    else if (column == "-") say("Rows are missing at the end of " file ", from line " line " on.")
    else say(where " is not the row of this link and interval, in " column ".")
    if (code == "E13") {
        say("The table is of another network, or of an assign with another --horizon, --bucket, " \
            "--step or unit.")
        say("Give this run the words of that assign.")
    }
}

function of_slow_link(    length_told, speed_told) {
    length_told = field("length") " " ARGV[2]
    speed_told = field("free_speed") " " (ARGV[3] == "mph" ? "mph" : "km/h")
    if (field("free_speed") == "") speed_told = "50 km/h"
    say(where ": a drive over " length_told " at " speed_told " takes more than 10000 steps of " \
        ARGV[4] " seconds.")
    if (ARGV[2] != "m" && field("length") + 0 > 100)
        say("The length looks like metres, and the run takes it as " ARGV[2] \
            ": try --length-unit m.")
    else say("Is the length or the speed in another unit than --length-unit and --speed-unit say?")
}

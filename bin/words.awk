# Says in words why a line is refused with 1 to 5, 10 or 13: which condition it is, which field, what stands there; and of 15
# which positions there are.
#
#     od -An -v -tu1 FILE | awk -v number=NUMBER -v place=PLACE -v position=POSITION -f words.awk
#
# The input is the bytes of the file as decimal numbers. The line is judged once more, in the order of docs/FORMAT.md; if that
# does not come to the same number, nothing is printed. Only words depend on this: number and place are the filter's. POSITION
# matters for 15 alone.

BEGIN {
    # What stands in the fields after the kind: a query, options, groups, a flag, a group, a name, a word of an op, a term,
    # pattern groups; `*` any count of the last. In the newer form an assume has a group before its term.
    form["ask"] = "query options"
    form["ask2"] = "query options groups"
    form["also"] = "query"
    form["hide"] = "name"
    form["free"] = "name"
    form["leaf"] = ""
    form["call"] = "name term*"
    form["op"] = "word term*"
    form["all"] = form["some"] = "term patterns"
    form["let"] = "term term*"
    form["label"] = "term"
    form["assume"] = "name flag term"
    form["fun"] = "name"
    form["def"] = "name term"
    form["retain"] = "name*"
    form["root"] = "query name term"

    many_terms = split("free leaf call op all some let label", words_of, " ")
    for (i = 1; i <= many_terms; i++) is_term[words_of[i]] = 1
    is_taken["assume"] = is_taken["fun"] = is_taken["def"] = 1
    is_ask["ask"] = is_ask["ask2"] = 1
    is_position["ask"] = is_position["ask2"] = is_position["also"] = 1
    many_words = split("true iff eq and other", words_of, " ")
    for (i = 1; i <= many_words; i++) is_word[words_of[i]] = 1

    most["query"] = 255
    most["options"] = 15
    most["flag"] = 1
    most["group"] = 15
    most["groups"] = most["count"] = most["term"] = 65535
    article["query"] = "a query"
    article["options"] = "an options number"
    article["groups"] = "a groups number"
    article["flag"] = "a flag"
    article["group"] = "a group"
    article["count"] = "a count"
    article["term"] = "a term"
    article["name"] = "a name"
    article["word"] = "an op word"

    first_line = "ask,QUERY,OPTIONS or ask2,QUERY,OPTIONS,GROUPS"
    LINE_FEED = 10
    RETURN = 13
    COMMA = 44
    for (i = 33; i <= 126; i++) shown[i] = sprintf("%c", i)
    shown[32] = " "
}

{
    for (i = 1; i <= NF && !judged; i++) {
        if ($i == LINE_FEED) {
            end_line(1)
        } else {
            bytes[++length_of_line] = $i + 0
        }
    }
}

END {
    if (!judged && length_of_line) end_line(0)
    if (!judged && place == 1 && number == 1) print "line 1: the file is empty; its first line is " first_line
    if (number == 15) {
        print "position " position " has no ask or also line; the file has " \
            (position_lines == 1 ? "one, at position 1" : "them at positions 1 to " position_lines)
    }
}

# Judges the line that has been gathered if it is the refused one, else notes what later lines depend on.
function end_line(ended) {
    line++
    split_fields()
    if (line == place) {
        judged = 1
        judge(ended)
    } else {
        kind = text(1)
        if (line == 1) ask = kind
        if (line == 1 && ask == "ask2") form["assume"] = "name flag group term"
        if (kind in is_position) position_lines++
        else past_positions = 1
        if (!(kind in is_position) && kind != "hide") past_head = 1
        if (kind in is_term) term_lines++
        if (kind in is_taken) taken[text(2)] = line
    }
    length_of_line = 0
}

# Where each field starts and ends.
function split_fields(   i) {
    fields = 1
    first[1] = 1
    for (i = 1; i <= length_of_line; i++) {
        if (bytes[i] == COMMA) {
            last[fields] = i - 1
            first[++fields] = i + 1
        }
    }
    last[fields] = length_of_line
}

# The bytes of a field; those that are not plain text by their number.
function text(field,   i, out) {
    for (i = first[field]; i <= last[field]; i++) {
        out = out (bytes[i] in shown ? shown[bytes[i]] : sprintf("\\x%02X", bytes[i]))
    }
    return out
}

# A field as it is shown, cut where it is long.
function quoted(field,   out) {
    out = text(field)
    return "\"" (length(out) > 60 ? substr(out, 1, 60) ".." : out) "\""
}

# The first fault of the line.
function judge(ended,   kind) {
    if (!ended) {
        fault(1, 0, "the last line does not end with a line feed (byte 0A)")
        return
    }
    kind = text(1)
    if (!(kind in form)) {
        unknown_kind(kind)
    } else if (line == 1 && !(kind in is_ask)) {
        fault(1, 1, quoted(1) " stands where ask or ask2 has to: line 1 is " first_line)
    } else if (line > 1 && kind in is_ask && kind != ask) {
        fault(1, 1, quoted(1) " is of the other form: line 1 is " ask ", and so is every ask line")
    } else if (kind in is_ask && past_positions) {
        fault(1, 1, ask " may stand only on line 1 or directly after an " ask " or also line")
    } else if (kind == "also" && past_positions) {
        fault(1, 1, "also may stand only directly after an " ask " or also line")
    } else if (kind == "hide" && past_head) {
        fault(1, 1, "hide may stand only directly after an " ask ", also or hide line")
    } else if (kind in is_position && position_lines >= 16) {
        fault(13, 0, "the file has more than 16 ask and also lines")
    } else if (form[kind] !~ /\*|patterns/ && fields != 1 + split(form[kind], parts, " ")) {
        fault(1, 0, "a line of kind " kind " has " counted(1 + split(form[kind], parts, " "), "field") ", this one " fields \
            of_other_form(kind))
    } else if (judge_fields(kind)) {
        judge_record(kind)
    }
}

# What to say of a line that has the fields of the other form.
function of_other_form(kind) {
    if (kind == "ask" && fields == 4) return "; with groups it is ask2,QUERY,OPTIONS,GROUPS"
    if (kind == "ask2" && fields == 3) return "; without groups it is ask,QUERY,OPTIONS"
    if (kind == "assume" && ask == "ask" && fields == 5) return "; it has a group only where line 1 is ask2"
    if (kind == "assume" && ask == "ask2" && fields == 4) return "; where line 1 is ask2 a group stands before the term"
    return ""
}

# A first field that is no kind of line.
function unknown_kind(kind) {
    if (bytes[1] == 239 && bytes[2] == 187 && bytes[3] == 191) {
        fault(1, 1, "the file starts with a byte order mark (bytes EF BB BF)")
    } else if (length_of_line == 0) {
        fault(1, 0, "a blank line; there are none in a file")
    } else if (kind ~ /^ *(#|;|%|--|\/\/)/) {
        fault(1, 1, quoted(1) " is no kind of line; there are no comments in a file")
    } else {
        fault(1, 1, quoted(1) " is no kind of line")
    }
}

# Judges the fields after the kind, from the left; whether none has a fault.
function judge_fields(kind,   field, i, many, sort) {
    field = 2
    many = split(form[kind], parts, " ")
    for (i = 1; i <= many; i++) {
        sort = parts[i]
        if (sort == "patterns") return judge_patterns(field)
        if (sort ~ /\*$/) {
            sub(/\*$/, "", sort)
            for (; field <= fields; field++) {
                if (!judge_field(field, sort)) return 0
            }
        } else if (!judge_field(field++, sort)) {
            return 0
        }
    }
    return 1
}

# Judges pattern groups: how many there are, then each as a count and its terms.
function judge_patterns(field,   groups, group, count, i) {
    if (!judge_field(field, "count")) return 0
    groups = text(field++) + 0
    for (group = 1; group <= groups; group++) {
        if (!judge_field(field, "count")) return 0
        count = text(field++) + 0
        for (i = 1; i <= count; i++) {
            if (!judge_field(field++, "term")) return 0
        }
    }
    if (field > fields) return 1
    return fault(1, field, quoted(field) " is left over: the line says " counted(groups, "pattern group") \
        ", and they end before it")
}

# Judges one field, which has to be of a sort; whether it has no fault.
function judge_field(field, sort,   value) {
    if (field > fields) return fault(1, field, "is lacking; " article[sort] " has to stand there")
    value = text(field)
    if (sort == "name") return judge_name(field)
    if (sort == "word") {
        if (value in is_word) return 1
        return fault(1, field, quoted(field) " is no op word; these are true, iff, eq, and, other")
    }
    if (value == "") return fault(3, field, "is empty; " article[sort] " has to stand there")
    if (value !~ /^[0-9]+$/) return fault(3, field, quoted(field) " is no number")
    if (value ~ /^0./) return fault(3, field, quoted(field) " is no number: it starts with a zero")
    if (length(value) > 5 || value + 0 > 65535) return fault(3, field, quoted(field) " is no number: the largest is 65535")
    if (value + 0 > most[sort]) return fault(3, field, article[sort] " is 0 to " most[sort] ", not " value)
    if (sort == "term" && value + 0 >= term_lines) {
        if (!term_lines) return fault(4, field, "there is no term " value ": no term line stands above")
        return fault(4, field, "there is no term " value ": the last term line above is number " term_lines - 1)
    }
    return 1
}

# Judges a name; whether it has no fault.
function judge_name(field,   i, size) {
    size = last[field] - first[field] + 1
    if (size == 0) return fault(2, field, "is empty; a name has to stand there")
    for (i = first[field]; i <= last[field]; i++) {
        if (bytes[i] == 32) return fault(2, field, quoted(field) " is no name: it has a blank")
        if (bytes[i] < 33 || bytes[i] > 126) {
            return fault(2, field, quoted(field) " is no name: it has the byte " sprintf("%02X", bytes[i]))
        }
    }
    if (size > 255) return fault(2, field, quoted(field) " is no name: it has " size " bytes, and the most are 255")
    return 1
}

# What is judged once the fields are: a name that is taken, and which of two limits is passed.
function judge_record(kind) {
    if (kind in is_taken && text(2) in taken) {
        fault(5, 2, "the name " quoted(2) " is taken by line " taken[text(2)])
    } else if (number == 10) {
        fault(10, 0, "the file has more than " \
            (term_lines >= 4096 ? "4,096 term lines" : "16,384 terms named in its term lines"))
    }
}

# A count of things.
function counted(count, what) {
    return count " " what (count == 1 ? "" : "s")
}

# Prints a fault, at a field unless that is 0, if its number is the filter's; 0. Where the field ends with a carriage return,
# that is why.
function fault(found, field, why) {
    if (found != number) return 0
    if (field && field <= fields && last[field] >= first[field] && bytes[last[field]] == RETURN) {
        field = 0
        why = "a carriage return (byte 0D) stands before the line feed; a line ends with a line feed alone"
    }
    print "line " line (field ? ", field " field : "") (why ~ /^is / ? " " : ": ") why
    return 0
}

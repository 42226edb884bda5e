# Reads the headers, so that nothing here lists their operations a second time: awk -v write=WHAT -v defined=NAMES -f header.awk include/formula.h
# include/formula_int.h
# Only the functions that an archive defines are written: NAMES has them.
#   names    the functions, one a line
#   record   functions of these names in C, each of which notes its call for record.c and makes it
#   replay   a table of the operations in C, for replay.c
#   module   operations, structures and constants in JavaScript, for formula.mjs
# A declaration of a form that is not known here is refused; a new operation with known forms wants no line anywhere in this folder.

function refuse(what) {
    print "header: " what > "/dev/stderr"
    refused = 1
    exit 1
}

# ---- the header: comments away, then declarations, structures, constants ----

function without_comments(line,    at, end) {
    if (commented) {
        end = index(line, "*/")
        if (end == 0) return ""
        line = substr(line, end + 2)
        commented = 0
    }
    while ((at = index(line, "/*")) != 0) {
        end = index(substr(line, at + 2), "*/")
        if (end == 0) {
            commented = 1
            return substr(line, 1, at - 1)
        }
        line = substr(line, 1, at - 1) substr(line, at + end + 3)
    }
    sub(/ +$/, "", line)
    return line
}

# One parameter, or a pointer with the length behind it, becomes a part: its form, its name and the size of a place.
# Forms: read, write (which is read too), count (64 bits), word (32 bits), struct.
function add_part(form, name, size) {
    parts[n]++
    part_form[n, parts[n]] = form
    part_name[n, parts[n]] = name
    part_size[n, parts[n]] = size
}

function read_declaration(text,    head, each, count, i) {
    head = text
    sub(/\(.*/, "", head)
    split(head, each, " ")
    if (index(" " defined " ", " " each[2] " ") == 0) return
    n++
    returned[n] = each[1]
    name[n] = each[2]
    parameters[n] = text
    sub(/^[^(]*\(/, "", parameters[n])
    sub(/\);.*/, "", parameters[n])
    count = split(parameters[n], each, /, */)
    for (i = 1; i <= count; i++) {
        if (each[i] ~ /^(const )?uint(8|16|32)_t \*/) {
            head = each[i] ~ /^const / ? "read" : "write"
            size = each[i] ~ /uint8_t/ ? 1 : each[i] ~ /uint16_t/ ? 2 : 4
            sub(/.*\*/, "", each[i])
            add_part(head, each[i], size)
            if (each[++i] !~ /^uint64_t /) refuse(name[n] ": no length behind " each[i - 1])
        } else if (each[i] ~ /^struct formula_[a-z_]+ \*/) {
            split(each[i], words, /[ *]+/)
            add_part("struct", words[3], words[2])
        } else if (each[i] ~ /^uint64_t [a-z_]+$/) {
            add_part("count", substr(each[i], 10), 8)
        } else if (each[i] ~ /^uint32_t [a-z_]+$/) {
            add_part("word", substr(each[i], 10), 4)
        } else if (each[i] ~ /^float [a-z]+$/) {
            add_part("float", substr(each[i], 7), 4)
        } else {
            refuse(name[n] ": " each[i])
        }
    }
}

# A line of a structure: several names of one type, or an array.
function read_fields(line,    words, each, count, i) {
    gsub(/^ +|;$/, "", line)
    count = split(line, each, /, */)
    split(each[1], words, " ")
    type = words[1] == "struct" ? words[2] : words[1]
    sub(/.* /, "", each[1])
    for (i = 1; i <= count; i++) {
        length_of = ""
        if (each[i] ~ /\[/) {
            length_of = each[i]
            gsub(/.*\[|\]/, "", length_of)
            sub(/\[.*/, "", each[i])
        }
        fields[structure] = fields[structure] (fields[structure] == "" ? "" : ", ") "[\"" each[i] "\", \"" type "\"" \
            (length_of == "" ? "" : ", " length_of) "]"
    }
}

{ $0 = without_comments($0) }
/^(void|uint32_t|float) formula_[a-z_]+\(/ { declaration = "" ; collecting = 1 }
collecting {
    line = $0
    sub(/^ +/, "", line)
    declaration = declaration (declaration == "" ? "" : " ") line
    if (/\);$/) {
        collecting = 0
        read_declaration(declaration)
    }
    next
}
/^struct formula_[a-z_]+ \{$/ { structure = $2; structures[++structure_count] = $2; next }
/^};?$/ { structure = ""; next }
structure != "" { read_fields($0); next }
/^#define FORMULA_[A-Z_]+ +[0-9]+u?$/ || /^    FORMULA_[A-Z_]+ = [0-9]+,?$/ {
    gsub(/#define|=/, " ")
    constants[++constant_count] = $1
    value[$1] = $2 + 0
}
/^    case FORMULA_[A-Z_]+: return ".*";$/ {
    sub(/^ *case /, "")
    answer_of[++answer_count] = substr($0, 1, index($0, ":") - 1)
    answer_text[answer_count] = substr($0, index($0, "\""), length($0) - index($0, "\""))
}

# ---- what is written ----

function operation(i) {
    return part_form[i, 1] != "float"
}

function write_record(i,    p, arguments, call) {
    arguments = parameters[i]
    gsub(/(const )?(struct )?[a-z0-9_]+ \*?/, "", arguments)
    print returned[i] " recorded_" name[i] "(" parameters[i] ");"
    print returned[i] " " name[i] "(" parameters[i] ")"
    print "{"
    print "    begin(\"" substr(name[i], 9) "\");"
    for (p = 1; p <= parts[i]; p++) print "    " noted(i, p, "before")
    call = "recorded_" name[i] "(" arguments ");"
    print "    " (returned[i] == "void" ? "" : returned[i] " result = ") call
    for (p = 1; p <= parts[i]; p++) if (part_form[i, p] == "write" || part_form[i, p] == "struct") print "    " noted(i, p, "after")
    print "    end(" (returned[i] == "void" ? 0 : "result") ");"
    if (returned[i] != "void") print "    return result;"
    print "}\n"
}

function noted(i, p, when,    form, size) {
    form = part_form[i, p]
    if (form == "count" || form == "word") return "number(" part_name[i, p] ");"
    size = form == "struct" ? "sizeof *" part_name[i, p] : part_size[i, p] " * " length_name(i, p)
    return when "(" part_name[i, p] ", " size ");"
}

# The parameter behind a pointer.
function length_name(i, p,    each, count, k) {
    count = split(parameters[i], each, /, */)
    for (k = 1; k <= count; k++) if (each[k] ~ ("\\*" part_name[i, p] "$")) return substr(each[k + 1], 10)
}

function write_replay(i,    p, forms, call, type) {
    forms = call = ""
    for (p = 1; p <= parts[i]; p++) {
        type = part_form[i, p]
        forms = forms (type == "read" ? "r" : type == "count" || type == "word" ? "n" : "w")
        call = call (p == 1 ? "" : ", ")
        if (type == "struct") call = call "(struct " part_size[i, p] " *)(void *)part[" p - 1 "].bytes"
        else if (type == "count") call = call "part[" p - 1 "].number"
        else if (type == "word") call = call "(uint32_t)part[" p - 1 "].number"
        else call = call "(uint" 8 * part_size[i, p] "_t *)(void *)part[" p - 1 "].bytes, part[" p - 1 "].size / " part_size[i, p]
    }
    call = name[i] "(" call ");"
    print "static uint32_t call_" i "(const struct part *part)\n{"
    print returned[i] == "void" ? "    " call "\n    return 0;\n}\n" : "    return " call "\n}\n"
    rows = rows "    {\"" substr(name[i], 9) "\", \"" forms "\", call_" i "},\n"
}

function write_module(i,    p, list) {
    list = ""
    for (p = 1; p <= parts[i]; p++) list = list (p == 1 ? "" : ", ") "[\"" part_form[i, p] "\", \"" part_name[i, p] "\", \"" part_size[i, p] "\"]"
    print "  " substr(name[i], 9) ": [" list "],"
}

END {
    if (refused) exit 1
    if (n == 0) refuse("no function")
    if (write == "names") for (i = 1; i <= n; i++) print name[i]
    if (write == "record") for (i = 1; i <= n; i++) if (operation(i)) write_record(i)
    if (write == "replay") {
        for (i = 1; i <= n; i++) if (operation(i)) write_replay(i)
        printf "static const struct operation operations[] = {\n%s};\n", rows
    }
    if (write == "module") {
        for (i = 1; i <= constant_count; i++) print "export const " substr(constants[i], 9) " = " value[constants[i]] ";"
        print "export const ANSWER_TEXTS = {"
        for (i = 1; i <= answer_count; i++) print "  " value[answer_of[i]] ": " answer_text[i] ","
        print "};\n\n// Name, type, and the length of an array.\nexport const STRUCTURES = {"
        for (i = 1; i <= structure_count; i++) {
            gsub(/FORMULA_/, "", fields[structures[i]])
            print "  " structures[i] ": [" fields[structures[i]] "],"
        }
        print "};\n\n// The parts of each call: form, name, and the size of a place or the structure's name.\nexport const OPERATIONS = {"
        for (i = 1; i <= n; i++) if (operation(i)) write_module(i)
        print "};"
    }
}

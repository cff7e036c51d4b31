# Writes the manual page lutniorad.3: awk -f docs/manual.awk include/lutniorad.h
# Its text is the header's, comment by comment. Paragraphs are filled; what is indented there by four is kept as it
# stands, and broken where it is wider than a screen. A line that is not understood is named, and the status is then 1.

BEGIN {
    WIDEST = 66 # columns of what is kept as it stands: with its margin, 80
}

function fail(what) {
    print FILENAME ":" FNR ": " what | "cat >&2"
    failed = 1
}

# ---- Text for roff

function escaped(text) {
    gsub(/\\/, "\\e", text)
    gsub(/\^/, "\\(ha", text)
    gsub(/~/, "\\(ti", text)
    return text
}

# A line must not begin as a request does.
function guarded(line) {
    return line ~ /^[.']/ ? "\\&" line : line
}

# Text that is typed or printed as it stands: its hyphens are minus signs.
function literal(text) {
    text = escaped(text)
    gsub(/-/, "\\-", text)
    gsub(/'/, "\\(aq", text)
    return text
}

function bold(text) {
    return "\\fB" text "\\fR"
}

# The names of the library are bold, and what stands between backquotes is in italics.
function prose(text,    parts, n, i, part, made) {
    n = split(text, parts, "`")
    for (i = 1; i <= n; i++) {
        if (i % 2 == 0) {
            made = made "\\fI" literal(parts[i]) "\\fR"
            continue
        }
        part = escaped(parts[i])
        gsub(/ - /, " \\- ", part)
        gsub(/(lutniorad|LUTNIORAD)_[A-Za-z_]*[A-Za-z]/, "\\fB&\\fR", part)
        made = made part
    }
    return sentences(made)
}

# Each on a line of its own, so that all are set the same distance apart.
function sentences(text,    made, end) {
    while (match(text, /[.?]\)? /)) {
        end = RSTART + RLENGTH - 1
        made = made guarded(substr(text, 1, end - 1)) "\n"
        text = substr(text, end + 1)
    }
    return made guarded(text) "\n"
}

# A row of a table. What does not fit goes on below the start of its last column.
function row(line,    made, column, at) {
    for (column = length(line); column > 2; column--)
        if (substr(line, column - 2, 3) ~ /^  [^ ]/) break
    while (length(line) > WIDEST) {
        for (at = WIDEST + 1; at > column; at--)
            if (substr(line, at, 1) == " ") break
        if (at <= column) break # there is nowhere to break it
        made = made guarded(literal(substr(line, 1, at - 1))) "\n"
        line = sprintf("%" (column - 1) "s", "") substr(line, at + 1)
    }
    return made guarded(literal(line)) "\n"
}

# ---- A comment, line by line

# Ends the paragraph, the item of a list or the table that was begun.
function finish() {
    if (kind == "paragraph") said = said ".PP\n" prose(text)
    if (kind == "item") said = said ".IP \\(bu 2\n" prose(text)
    if (kind == "table") said = said ".PP\n.RS 4\n.EX\n" text ".EE\n.RE\n"
    kind = text = ""
}

function begin(what, line) {
    finish()
    kind = what
    text = line
}

function take(line) {
    if (line == "") finish()
    else if (line ~ /^  - /) begin("item", substr(line, 5))
    else if (kind == "item" && line ~ /^    /) text = text " " substr(line, 5)
    else if (line ~ /^    /) {
        if (kind != "table") begin("table", "")
        text = text row(substr(line, 5))
    }
    else if (kind != "paragraph" || line ~ /^Refuses by /) begin("paragraph", line)
    else text = text " " line
}

# What the last comment said, which is then used up.
function taken(    words) {
    words = said
    said = ""
    return words
}

# The words that the description explains are bold where it does so: in capitals, at the start of a paragraph.
function with_words(text,    lines, n, i, made) {
    n = split(text, lines, "\n")
    for (i = 1; i < n; i++) {
        if (lines[i - 1] == ".PP" && match(lines[i], /^(An? |The )?[A-Z][A-Z ]*[A-Z][.]?/)) {
            match(lines[i], /[A-Z][A-Z ]*[A-Z][.]?/)
            lines[i] = substr(lines[i], 1, RSTART - 1) bold(substr(lines[i], RSTART, RLENGTH)) \
                substr(lines[i], RSTART + RLENGTH)
        }
        made = made lines[i] "\n"
    }
    return made
}

# ---- What stands behind a comment

# Text below a heading, which begins a paragraph itself.
function headed(macro, name, text) {
    if (text == "") fail("there is nothing to say of " name)
    sub(/^\.PP\n/, "", text)
    return macro " " name "\n" text
}

function entry(name, number, text) {
    name = bold(literal(name)) (number == "" ? "" : " " literal(number))
    return ".TP\n" name "\n" (text == "" ? "\\&\n" : prose(text))
}

# Splits a line of code from the comment behind it.
function split_comment(line) {
    remark = ""
    if (match(line, /\/\* .* \*\//)) {
        remark = substr(line, RSTART + 3, RLENGTH - 6)
        line = substr(line, 1, RSTART - 1)
    }
    sub(/[ \\]*$/, "", line)
    return line
}

# The sum that a macro stands for, as one would write it by hand: ((size_t)(q) + 4) is q + 4.
function plain_sum(value) {
    gsub(/\(size_t\)/, "", value)
    while (match(value, /\([a-z]\)/))
        value = substr(value, 1, RSTART - 1) substr(value, RSTART + 1, 1) substr(value, RSTART + 3)
    return substr(value, 2, length(value) - 2)
}

# In bold, the arguments by the lines that they have in the header.
function add_prototype(prototype,    lines, n, i) {
    synopsis = synopsis ".PP\n"
    n = split(prototype, lines, "\n")
    for (i = 1; i <= n; i++)
        synopsis = synopsis bold(literal(lines[i])) "\n"
}

# ---- The header, line by line

state == "comment" {
    if ($0 == " */") {
        finish()
        state = ""
    } else if ($0 ~ /^ \*( |$)/) take(substr($0, 4))
    else fail("this line of a comment is not understood")
    next
}

/^\/\*/ && said != "" { fail("the comment before this one belongs to nothing") }
/^\/\*$/ { state = "comment"; next }
/^\/\* .* \*\/$/ { take(substr($0, 4, length($0) - 6)); finish(); next }

# A list of reasons, one to a line.
state == "refusals" {
    line = split_comment($0)
    if (match(line, /^ *REFUSAL\(/) && split(substr(line, RLENGTH + 1), words, ", ") > 2) {
        sentence = line
        sub(/^[^"]*"/, "", sentence)
        sub(/".*$/, "", sentence)
        refusals = refusals entry(words[1], words[2], sentence (remark == "" ? "" : "; `place`: " remark))
    } else fail("this line of the refusals is not understood")
    if ($0 !~ /\\$/) state = ""
    next
}

state == "enum" {
    line = split_comment($0)
    if (line == "};") {
        if (answers == "") refusals = refusals listed
        else answers = answers listed
        state = listed = ""
    } else if (line ~ /^    LUTNIORAD_[A-Z_]+ = [0-9]+,?$/) {
        sub(/,$/, "", line)
        split(line, words, " ")
        listed = listed entry(words[1], words[3], remark)
    } else if (line !~ /^(#|    LUTNIORAD_REFUSALS)/) fail("this line of an enum is not understood")
    next
}

state == "struct" {
    prototype = prototype "\n" $0
    if ($0 ~ /^}/) {
        add_prototype(prototype)
        state = ""
    }
    next
}

state == "call" {
    sub(/^ */, "    ")
    prototype = prototype "\n" $0
    if ($0 ~ /;$/) {
        add_prototype(prototype)
        state = ""
    }
    next
}

state == "body" {
    if ($0 ~ /^}/) state = ""
    next
}

# The first comment: what the library is, and then how it works.
description == "" {
    description = taken()
    if (match(description, /^\.PP\nLutniorad: [^\n]*\.\n/)) {
        purpose = substr(description, 16, RLENGTH - 17)
        description = with_words(substr(description, RLENGTH + 1))
    } else fail("the first comment does not begin by saying what the library is")
}

/^#define LUTNIORAD_VERSION/ {
    line = split_comment($0)
    split(line, words, " ")
    if (words[2] == "LUTNIORAD_VERSION") version = substr(words[3], 2, length(words[3]) - 2)
    versions = versions taken() entry(words[2], words[3], remark)
    next
}

/^#define LUTNIORAD_REFUSALS\(REFUSAL\) \\$/ { refusals = taken(); state = "refusals"; next }

/^#define LUTNIORAD_[A-Z_]+ [0-9]+/ {
    line = split_comment($0)
    split(line, words, " ")
    limits = limits taken() entry(words[2], words[3], remark)
    next
}

/^#define LUTNIORAD_[A-Z_]+\([a-z, ]+\) \(.*\)/ {
    line = split_comment(substr($0, 9))
    match(line, /^[^)]*\)/)
    limits = limits taken() entry(substr(line, 1, RLENGTH), "", \
        plain_sum(substr(line, RLENGTH + 2)) (remark == "" ? "" : ", " remark))
    next
}

/^typedef struct [{]$/ { returned = taken(); prototype = $0; state = "struct"; next }

/^enum [{]$/ { answers = taken(); state = "enum"; next }

/^static inline .*\)$/ {
    sub(/^static inline /, "")
    add_prototype($0 ";")
    match($0, /lutniorad_[a-z_]+/)
    refusals = refusals headed(".SS", substr($0, RSTART, RLENGTH), taken())
    state = "body"
    next
}

/^[a-z].*[ *]lutniorad_[a-z_]+\(/ {
    match($0, /lutniorad_[a-z_]+\(/)
    calls = calls headed(".SS", substr($0, RSTART, RLENGTH - 1), taken()) answers
    answers = ""
    if ($0 ~ /;$/) add_prototype($0)
    else {
        prototype = substr($0, 1, RSTART + RLENGTH - 1) "\n    " substr($0, RSTART + RLENGTH)
        state = "call"
    }
    next
}

/^$/ || /^#(if|endif|include|undef)/ || /^#define LUTNIORAD_H$/ || /^extern "C" [{]$/ || /^}$/ { next }

{ fail("this line is not understood") }

END {
    if (said != "") fail("the last comment belongs to nothing")
    if (version == "") fail("there is no version")
    page = ".TH LUTNIORAD 3 \"\" \"Lutniorad " version "\"\n.nr HY 0\n.nh\n.ad l\n" \
        headed(".SH", "NAME", "lutniorad \\- " purpose "\n") \
        headed(".SH", "SYNOPSIS", ".nf\n.B #include <lutniorad.h>\n.PP\n" \
            bold("cc \\fIfile\\fB.c $(pkg\\-config \\-\\-cflags \\-\\-libs lutniorad)") "\n" synopsis ".fi\n") \
        headed(".SH", "DESCRIPTION", description) headed(".SH", "RETURN VALUE", returned) \
        headed(".SH", "CALLS", calls) headed(".SH", "REFUSALS", refusals) headed(".SH", "LIMITS", limits) \
        headed(".SH", "VERSION", versions)
    if (failed) exit 1
    printf "%s", page
}

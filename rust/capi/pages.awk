# Writes a manual page for each function that the header, the first file, declares, in the folder `folder`: its prototype, its
# comment, and what the header says of its section. Sentences that begin with a code are the return value. `version` is that
# of the library. Copies num_modular.3, the second file, there, with the functions of each section for the line @FUNCTIONS@.
#
# A comment right before declarations belongs to them. Any other comment is of the section, which begins with "--- ".

function escaped(text) {
    gsub(/-/, "\\-", text)
    gsub(/\^/, "\\(ha", text)
    sub(/^[.']/, "\\\\\\&&", text)
    return text
}

# the comment's first sentence up to a colon, a semicolon or a comma, as the one line of a manual's index
function summary(text) {
    gsub(/\n/, " ", text)
    sub(/[.:;,] .*$/, "", text)
    sub(/\.$/, "", text)
    return escaped(text)
}

# a comment's sentences, each on a line, with a paragraph for each empty line; those on codes are added to
# `returned` instead
function prose(text,    paragraphs, count, sentences, number, i, k, it, found) {
    count = split(text, paragraphs, "\n\n")
    for (i = 1; i <= count; i++) {
        gsub(/\n/, " ", paragraphs[i])
        sub(/\. *$/, "", paragraphs[i])
        number = split(paragraphs[i], sentences, /\. /)
        if (i > 1) found = found ".PP\n"
        for (k = 1; k <= number; k++) {
            it = escaped(sentences[k] ".")
            if (match(it, /^NM_[A-Z_, ]*: /))
                returned = returned ".TP\n.B " substr(it, 1, RLENGTH - 2) "\n" substr(it, RLENGTH + 1) "\n"
            else if (it ~ /^The codes /) returned = returned ".PP\n" it "\n"
            else found = found it "\n"
        }
    }
    return found
}

# the other functions that a comment names
function others(text, name,    found, it, seen) {
    while (match(text, /nm_[a-z0-9_]*[a-z0-9]/)) {
        it = substr(text, RSTART, RLENGTH)
        text = substr(text, RSTART + RLENGTH)
        if (it != name && it !~ /_t$/ && text !~ /^_/ && !(it in seen)) found = found ".BR " it " (3),\n"
        seen[it]
    }
    return found
}

# adds a function to those of its section, whose title is its first sentence
function list_function(name,    title) {
    if (section == "") return
    title = substr(section "\n", 1, index(section "\n", "\n") - 1)
    sub(/\. .*$/, "", title)
    sub(/\.$/, "", title)
    if (!(title in listed)) titles[++sections] = title
    listed[title] = listed[title] (listed[title] == "" ? "" : " ,\n") ".BR " name
}

# the functions of each section, below its title
function functions(    i, found) {
    for (i = 1; i <= sections; i++) found = found ".TP\n" escaped(titles[i]) "\n" listed[titles[i]] "\n"
    return found
}

NR > FNR {
    gsub(/@VERSION@/, version)
    printf "%s", $0 == "@FUNCTIONS@" ? functions() : $0 "\n" >(folder "/num_modular.3")
    next
}

function page(name,    file) {
    returned = ""
    file = folder "/" name ".3"
    printf ".TH %s 3 \"\" \"num_modular %s\" \"Library calls\"\n.nh\n.ad l\n", toupper(name), version >file
    printf ".SH NAME\n%s \\- %s\n", name, summary(own) >file
    printf ".SH SYNOPSIS\n.nf\n#include <num_modular.h>\n\n%s\n.fi\n", prototype >file
    printf ".SH DESCRIPTION\n%s", prose(own) >file
    if (section != "") printf ".PP\n%s", prose(section) >file
    if (returned != "") printf ".SH RETURN VALUE\n.TP\n.B NM_OK\nno error.\n%s", returned >file
    printf ".SH SEE ALSO\n%s.BR num_modular (3)\n", others(own, name) >file
    close(file)
}

/^\/\* / { in_comment = 1; comment = "" }

in_comment {
    line = $0
    ends = sub(/ ?\*\/$/, "", line)
    sub(/^(\/\*| \*) ?/, "", line)
    comment = comment (comment == "" ? "" : "\n") line
    if (ends) {
        in_comment = 0
        sub(/\n$/, "", comment)
        own = comment
        is_declared = 0
    }
    next
}

/^$/ {
    if (own != "" && !is_declared) {
        begins = sub(/^--- /, "", own)
        sub(/ ---/, "", own)
        section = begins || section == "" ? (begins ? own : "") : section "\n\n" own
    }
    own = ""
    next
}

{ is_declared = 1 }

/^(NM_CHECK )?[a-z0-9_]*_t nm_[a-z0-9_]*\(/ {
    prototype = ""
    name = $0
    sub(/\(.*/, "", name)
    sub(/.* /, "", name)
}

name != "" {
    line = $0
    sub(/^NM_CHECK /, "", line)
    sub(/^  +/, "    ", line)
    prototype = prototype (prototype == "" ? "" : "\n") line
    if (line ~ /\);$/) {
        page(name)
        list_function(name)
        name = ""
    }
}

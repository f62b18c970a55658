# Of the headers' text, for each call that they declare (of the library) or define (inline): its name (how=declared,
# how=defined), or a C function that makes the call and drops its answer (how=drop) or hands it on (how=use). A call
# without an answer has nothing to drop.
/^[ \t]*#/ { next }
{ text = text " " $0 }
END {
    while ((from = index(text, "/*")) > 0) {
        rest = substr(text, from)
        text = substr(text, 1, from - 1) substr(rest, index(rest, "*/") + 2)
    }
    gsub(/[ \t]+/, " ", text)
    count = split(text, pieces, /[;{}]/)
    for (i = 1; i <= count; i++) call(pieces[i])
}
function call(piece, kind, answers, name, parameters, made) {
    kind = piece ~ /static inline/ ? "defined" : "declared"
    gsub(/static inline |ZK_ANSWER |^ | $/, "", piece)
    if (piece !~ /^(const )?[a-z0-9_]+ \*?zk_[a-z0-9_]+\([^()=]*\)$/ || piece ~ /^(void|return) /) return
    parameters = substr(piece, index(piece, "("))
    answers = substr(piece, 1, index(piece, "(") - 1)
    name = answers
    sub(/.*[ *]/, "", name)
    sub(/zk_[a-z0-9_]+$/, "", answers)
    made = name "(" handed(parameters) ");"
    if (how == kind) print name
    if (how == "drop") both("void drop_" name parameters, made)
    if (how == "use") both(answers "use_" name parameters, "return " made)
}
function handed(parameters, each, many, names, k) { # the parameters' names
    many = parameters == "(void)" ? 0 : split(substr(parameters, 2, length(parameters) - 2), each, ",")
    for (k = 1; k <= many; k++) {
        sub(/.*[ *]/, "", each[k])
        names = names (k > 1 ? ", " : "") each[k]
    }
    return names
}
function both(head, body) { print head ";\n" head " { " body " }" } # a prototype, and the function

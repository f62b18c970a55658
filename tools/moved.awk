# The things of Rattle's and antt's files, one a line: kind, name, file, text in one line, lines. Used by tools/moved.
# A declaration of antt starts at its section's indentation with 'NAME :' or 'ruleset NAME =', and ends where the next
# one starts; 'data' and 'record' hold what is indented below them; the heads of the sections that it stands in are part
# of its text. Of a function's attributes those that name tactics are of its proof, the others of its promise.
function flush() {
    if (thing != "") {
        gsub(/[ ]+/, " ", text)
        print kind "\t" thing "\t" file "\t" text "\t" size
    }
    thing = ""
    text = ""
    size = 0
}
function begin(k, n, t) { flush(); kind = k; thing = n; text = t; file = FILENAME }
function add(line) { text = text " " line; size++ }
function heads(   i, s) { for (i = 1; i <= depth; i++) s = s head[i]; return s }
function indent(line) { match(line, /^ */); return RLENGTH }

FNR == 1 {
    flush()
    depth = 0
    opening = 0
    inside = 0
    infn = 0
    attribute = tactics = ""
    unended = 0
    n = split(FILENAME, path, "/")
    rattle = FILENAME ~ /\.rt$/
    walk = path[n] ~ /^(Proof|Answers|Invariants)\.antt$/
    if (walk)
        begin("proofs", (path[n] ~ /^I/ ? "invariants of " : "proof of ") path[n - 1] " (" path[2] ")", "")
}
/^ *(--|\/\/)/ || /^ *$/ { next }
/^ *((pub|ghost) )?use / || /^ *(pub )?mod / { next }
walk { add($0); next }

# ---- Rattle: a function's signature and clauses, its body; types and constants
rattle && infn == 1 { # the signature, up to the body's brace
    if ($0 ~ /^\{\}$/) { infn = 0; flush(); next }
    add($0)
    if ($0 ~ /^\{$/ || ($0 ~ / \{$/ && $0 !~ /^ *(requires|ensures) /)) { infn = 2; begin("code", called, "") }
    next
}
rattle && infn == 2 {
    if ($0 ~ /^\}/) { infn = 0; flush() } else add($0)
    next
}
rattle && (unended || /^#\[/) { # an attribute is of the thing behind it
    if (!unended) flush()
    if (unended ? intactics : /^#\[tactic/) tactics = tactics " " $0
    else attribute = attribute $0
    intactics = unended ? intactics : /^#\[tactic/
    unended = $0 !~ /\]$/
    next
}
rattle && /^(pub )?(extern "C" )?fn / {
    called = $0
    sub(/^.*fn /, "", called)
    sub(/[(<].*$/, "", called)
    if (tactics != "") begin("proofs", "tactics of " called " (" path[2] ")", tactics)
    begin("promises", called, attribute)
    attribute = tactics = ""
    add($0)
    infn = 1
    if ($0 ~ /[{] .* [}]$/) { infn = 0; flush() } else if ($0 ~ /\{$/) { infn = 2; begin("code", called, "") }
    next
}
rattle && /^(pub )?(struct|enum|const|type) / {
    called = $0
    sub(/^(pub )?(struct|enum|const|type) /, "", called)
    sub(/[^A-Za-z0-9_].*$/, "", called)
    begin("definitions", called, attribute)
    attribute = ""
    add($0)
    next
}
rattle { if (thing != "") add($0); next }

# ---- antt: sections and declarations
opening { # a section's head that goes on
    head[depth] = head[depth] " " $0
    if ($0 ~ /where$/) opening = 0
    next
}
{
    at = indent($0)
    if (inside && at > within) { add($0); next } # a field or a constructor
    inside = 0
    while (depth > 0 && at < level[depth]) depth--
}
/^ *module _/ {
    flush()
    depth++
    level[depth] = at + 2
    head[depth] = $0
    opening = $0 !~ /where$/
    next
}
at == (depth ? level[depth] : 0) && /^ *ruleset (pub )?[^ (]+ =/ {
    called = $0
    sub(/^ *ruleset (pub )?/, "", called)
    sub(/ .*$/, "", called)
    begin("proofs", called, heads())
    add($0)
    next
}
at == (depth ? level[depth] : 0) && /^ *((abbrev|unfoldable) )?(pub )?((data|record) )?[^ (]+ .*:/ {
    line = $0
    sub(/^ *((abbrev|unfoldable) )?(pub )?/, "", line)
    block = line ~ /^(data|record) /
    sub(/^(data|record) /, "", line)
    called = line
    sub(/ .*$/, "", called)
    rest = substr(line, length(called) + 2)
    if (block || rest ~ /^: / || rest == ":") {
        begin(FILENAME ~ /\/specs\// ? "definitions" : "proofs", called, heads())
        add($0)
        inside = block
        within = at
        next
    }
}
{ if (thing != "") add($0) }
END { flush() }

# Why a line of a sheet is refused, in words. Input: the sheet's bytes, as 'od -An -v -tu1' prints them, and the number
# of the line that the proved reader named (-v at=N). It decides nothing: where the sheet is refused is the reader's
# word, and this looks at that line and at the key before it. docs/formats/sheet.md lists the reasons.
BEGIN {
    digits = "0123456789abcdef"
    first = split("chip readmask blinkmask overlay timing", required, " ")
    lines = 265
    upper = "upper case; keys and digits are lower case"
    unix = " end; save the sheet with LF alone"
    line = 1
}
{ for (i = 1; i <= NF; i++) take($i + 0) }
END { print shown() why() }

function take(byte) {
    if (!bytes++) mark = byte
    else if (bytes == 2) mark = mark " " byte
    if (byte == 10) {
        if (line == at - 1) before = key_of(text)
        if (line == at) ended = 1
        line++
    }
    else if (line == at) hold(byte)
    else if (line == at - 1) text = text letter(byte)
    if (byte == 10 && line == at) text = ""
}

function hold(byte) {
    text = text letter(byte)
    last = byte
    if (length(text) > 1 && was == 13 && strange == "") strange = was
    if (byte != 13 && (byte < 32 || byte > 126) && strange == "") strange = byte
    was = byte
}

function letter(byte) { return byte < 32 || byte > 126 ? "?" : sprintf("%c", byte) }
function key_of(s) { return index(s, "=") ? substr(s, 1, index(s, "=") - 1) : "" }
function value_of(s) { return substr(s, index(s, "=") + 1) }

# the place of a key in a sheet's order: 1 to 5, 6 to 9 the overlays, 10 to 265 the colours; 0 is no key
function place(key,    i) {
    for (i = 1; i <= first; i++) if (key == required[i]) return i
    if (key ~ /^o[0-3]$/) return first + 1 + substr(key, 2)
    if (key ~ /^c[0-9a-f][0-9a-f]$/) return first + 5 + number(substr(key, 2))
    return 0
}
function number(s,    i, n) {
    for (i = 1; i <= length(s); i++) n = 16 * n + index(digits, substr(s, i, 1)) - 1
    return n + 0
}

# what a key's value has to be
function wanted(key) {
    if (key == "chip") return "'153108' stands behind chip="
    if (place(key) <= first) return "two hex digits stand behind " key "="
    return "three hex digits stand behind " key "=, red, green and blue"
}
function is_value(key, value) {
    if (key == "chip") return value == "153108"
    if (place(key) <= first) return value ~ /^[0-9a-f][0-9a-f]$/
    return value ~ /^[0-9a-f][0-9a-f][0-9a-f]$/
}
function reserved(key, value) { return key == "overlay" && (number(value) >= 128 || int(number(value) / 16) % 4 != 0) }

# the line, for a person: its first 40 characters
function shown(    s) {
    s = text
    if (last == 13) s = substr(s, 1, length(s) - 1)
    if (bytes == 0 || line < at || (line == at && s == "" && !ended)) return ""
    return "\"" (length(s) > 40 ? substr(s, 1, 40) ".." : s) "\": "
}

function why(    s, key) {
    if (bytes == 0) return "the sheet is empty; it begins with chip=153108"
    if (at == 1 && mark == "239 187") return "a byte-order mark at the start; save the sheet as plain text without one"
    if (at == 1 && (mark == "254 255" || mark == "255 254")) {
        return "text of 16 or 32 bits a character; save the sheet as plain text, a byte a character"
    }
    if (line < at || (text == "" && !ended)) return "the sheet ends before this line; " missing()
    if (strange == 9) return "a tab; a line has none"
    if (strange != "") return "not text; byte " strange " is no character of a sheet; save the sheet as plain text"
    if (last == 13) return (ended ? "CR LF at the line's" : "a CR and no newline at the sheet's") unix
    if (text == "") return "a blank line; take it out"
    if (at > lines) return "too long; a sheet has at most " lines " lines"
    if (bytes > 4096 && !ended) return "too long; a sheet has at most 2,134 bytes, and no more than 4,096 are read"
    if (text ~ /^[#;\/]/) return "a comment; a sheet has none"
    if (text ~ /[A-Z]/ && fits(tolower(text))) return upper
    key = key_of(text)
    if (!index(text, "=")) return "no '='; a line is key=value"
    if (key == "") return "no key before the '='; a line is key=value"
    if (text ~ / /) return "a space; a line has none"
    s = wrong_key(key)
    if (s != "") return s
    s = wrong_value(key, value_of(text))
    if (s != "") return s
    if (!ended) return "no newline at the sheet's end; the last line needs one too"
    return "no line of a sheet"
}
function missing() {
    if (at <= first) return required[at] "= is missing, " at " of the five lines that every sheet begins with"
    return "it ends in a newline, and nothing follows that"
}
# whether a text would do as this line
function fits(s) { return is_here(key_of(s)) && is_value(key_of(s), value_of(s)) && !reserved(key_of(s), value_of(s)) }
function is_here(key) { return at <= first ? place(key) == at : place(key) > first && place(key) > place(before) }

function wrong_key(key) {
    if (is_here(key)) return ""
    if (place(tolower(key)) && !place(key)) return upper
    if (place(key) && place(key) == place(before)) return "a key twice; each stands once"
    if (at <= first && place(key) > at) return "a missing key; " required[at] "= belongs here"
    if (at <= first) return "a wrong key; " required[at] "= belongs here"
    if (place(key) == 0) return "a wrong key; o0= to o3= and c00= to cff= belong here"
    return "a key out of order; o0= to o3= come first, then c00= to cff=, each rising"
}
function wrong_value(key, value) {
    if (reserved(key, value) && is_value(key, value)) return "a reserved bit; bits 7, 5 and 4 of overlay= are zero"
    if (is_value(key, value)) return ""
    if (key == "chip") return "another chip; " wanted(key) ", these digits alone"
    if (value ~ /[A-Z]/ && is_value(key, tolower(value))) return upper
    if (length(value) > (place(key) <= first ? 2 : 3)) return "too long; " wanted(key)
    if (length(value) < (place(key) <= first ? 2 : 3)) return "too short; " wanted(key)
    return "not all hex digits; " wanted(key) ", 0 to 9 and a to f"
}

# Sourced, from the project's root, with `who` the name that messages begin with: what is proved and built with the
# Rattle kit, which is all that it needs. Nothing is installed.
#
#   kit_check         fails, saying what is missing, before anything starts; kit is then the kit's folder
#   program NAME      `made NAME`, its file, proved and built unless that is done; kit_run is then the words before it
#   library           target/host/libzikombaru.a, every exported call of the proved crates in one archive
#   everything        both programs and the library, so that the tests behind it say nothing of building
#
# Of what is built a sum is kept, over the kit, every file that it is built from, and itself (target/built); it is built
# again when that sum is another. Of two commands that start together one builds, and the other waits: crates.txt is
# locked.
kit_made_with='rattle-kit-13f logic dac8208d650f15bf'

say() { printf '%s: %s\n' "$who" "$*" >&2; }

kit_check() {
    local name missing=()
    for name in awk find flock sha256sum xargs; do command -v "$name" >/dev/null || missing+=("$name"); done
    if [ ${#missing[@]} -gt 0 ]; then
        say "needs ${missing[*]}, which this machine has not: install them (Debian has them in findutils, util-linux," \
            "coreutils, mawk)"
        return 1
    fi
    if ! command -v rt >/dev/null; then
        say "needs the Rattle kit, $kit_made_with: put its bin folder, which has 'rt', on the PATH"
        return 1
    fi
    if ! kit_is=$(rt version 2>&1 </dev/null); then
        say "needs the Rattle kit, and 'rt version' says: $kit_is"
        return 1
    fi
    kit=$(dirname "$(rt doc </dev/null)")
    kit_run=("$kit/toolchain/lib/ld-linux-x86-64.so.2" --library-path "$kit/toolchain/lib")
    if [ ! -x "${kit_run[0]}" ]; then
        say "the Rattle kit is not whole: it has no ${kit_run[0]}, which runs its programs"
        return 1
    fi
    [ "$(uname -m)" = x86_64 ] && return
    kit_run=(qemu-x86_64 "${kit_run[@]}")
    command -v qemu-x86_64 >/dev/null && return
    say "needs qemu-x86_64, which runs the kit's programs here: install it (Debian has it in qemu-user)"
    return 1
}

# what building needs beside the kit: folders to write to, and room in them
room_check() {
    if ! mkdir -p target/built 2>/dev/null || [ ! -w target/built ] || [ ! -w crates ]; then
        say "can't write to the folders 'target' and 'crates' of the project, where it builds"
        return 1
    fi
    local free
    free=$(df -Pk crates | awk 'NR == 2 { print int($4 / 1024) }')
    if [ "${free:-9000}" -lt 2000 ]; then
        say "building needs some 2 GB in the folder 'crates' of the project; $free MB are free"
        return 1
    fi
    [ "$kit_is" = "$kit_made_with" ] || say "made with $kit_made_with; this kit is $kit_is: going on with it"
}

# reached CRATE..: the lines of crates.txt of these crates and of all that they rest on, lowest first, as rt goes
reached() {
    awk -F: -v wanted="$*" '
        function visit(name,    names, k, n) {
            if (name in seen || !(name in rests)) return
            seen[name] = 1
            n = split(rests[name], names, " ")
            for (k = 1; k <= n; k++) visit(names[k])
            print line[name]
        }
        !/^#/ { name = $1; sub(/ .*/, "", name); rests[name] = $2; line[name] = $0 }
        END { n = split(wanted, names, " "); for (k = 1; k <= n; k++) visit(names[k]) }' crates.txt
}

# sum_of CRATE..: a sum over the kit and the files that these crates are built from
sum_of() {
    local lines
    lines=$(reached "$@")
    {
        printf '%s\n' "$kit_is" "$lines"
        sed 's|[ :].*||; s|.*|crates/&/src\ncrates/&/specs\ncrates/&/proofs|' <<<"$lines" |
            xargs sh -c 'find "$@" -type f 2>/dev/null || true' sh | LC_ALL=C sort | xargs sha256sum
    } | sha256sum
}

# is_built FILE CRATE..: FILE is there as it was kept, made from these crates as they are
is_built() {
    local file=$1
    shift
    [ -f "$file" ] && [ "$(sum_of "$@" && sha256sum <"$file")" = "$(cat "target/built/${file##*/}" 2>/dev/null)" ]
}

# kept FILE SUM: notes that FILE was made from what has this sum
kept() { [ -f "$1" ] && { echo "$2" && sha256sum <"$1"; } >"target/built/${1##*/}"; }

# once FILE MAKER CRATE..: FILE, made by MAKER CRATE.. unless it is built; one at a time
once() {
    local file=$1 maker=$2
    shift 2
    is_built "$file" "$@" && return
    room_check || return
    (
        exec 9<crates.txt
        flock -n 9 || { say "another command is proving here: waiting for it" && flock 9; }
        is_built "$file" "$@" && exit
        sum=$(sum_of "$@")
        "$maker" "$@" 9<&- && kept "$file" "$sum"
    )
}

# rt_in CRATE NAME ALL COMMAND..: runs it in the crate's folder; what it prints goes to NAME's log. Each crate is shown
# as it is proved, by its number among ALL, a list of crates; if the command fails, the log's end is shown
rt_in() {
    local crate=$1 name=$2 all=$3 log=$PWD/target/built/$2.log
    shift 3
    (cd "crates/$crate" && exec "$@" </dev/null 2>&1) | tee "$log" | shown "$all"
    [ "${PIPESTATUS[0]}" -eq 0 ] && return
    say "$name could not be built; the end of what rt said, all of which is in $log:"
    grep -v -E '^(statements|library|rt: chose) ' "$log" | tail -n 15 | cut -c1-200 >&2
    return 1
}

# shown ALL: reads what rt prints, where a line 'crate NAME: ..' and then one 'logic=proved ..' tell of a proved crate
shown() {
    local line crate='' began=$SECONDS number
    while IFS= read -r line; do # not awk: some hold a pipe's lines back
        case $line in
        'crate '*:*)
            crate=${line#crate }
            crate=${crate%%:*}
            ;;
        logic=proved*)
            number=$(grep -n -m 1 -x -e "$crate" <<<"$1") || continue
            say "proved ${number%%:*} of $(grep -c . <<<"$1"): $crate ($((SECONDS - began)) s)"
            began=$SECONDS
            ;;
        esac
    done
    return 0
}

# names CRATE..: the crates, and those that they rest on, a line each
names() { reached "$@" | sed 's/[ :].*//'; }

# takes NAME ALL: says what begins, and how long it takes where nothing of it is done yet
takes() {
    local n minutes many=s
    n=$(grep -c . <<<"$2")
    minutes=$(((n * 15 + 59) / 60))
    [ $minutes -gt 1 ] || many=''
    say "proving and building $1, from $n crates, this once: up to $minutes minute$many on two cores"
}

# made NAME: the file of a program, which rt makes where it runs it
made() { echo "crates/$1/out/$1"; }

make_program() {
    local all
    all=$(names "$1")
    takes "$1" "$all"
    rt_in "$1" "$1" "$all" rt run
}

# the crates whose functions C calls: the static libraries of crates.txt
exporting() { sed -n 's/^\([a-z0-9_]*\) staticlib.*/\1/p' crates.txt; }

make_library() {
    local crate all file script="create target/host/libzikombaru.a"$'\n'
    all=$(names "$@")
    takes "the library for C" "$all"
    for crate in "$@"; do
        file=crates/$crate/out/lib$crate.a
        script+="addlib $file"$'\n'
        is_built "$file" "$crate" && continue
        rt_in "$crate" "lib$crate" "$all" rt lib || return
        kept "$file" "$(sum_of "$crate")"
    done
    mkdir -p target/host
    "$kit/toolchain/bin/llvm-ar" -M <<<"${script}save"$'\nend'
}

library() {
    once target/host/libzikombaru.a make_library $(exporting)
}

program() {
    once "$(made "$1")" make_program "$1"
}

everything() {
    kit_check && program loadlist && program replay && library
}

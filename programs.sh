# What ./shear and ./district share: how a program is proved, built and run, and what a refusal means. Each sets `name`, the program's, and `root`, the
# folder of this file, and reads this file in.

cannot() {
    echo "$name: $1" >&2
    exit 2
}

# Proves and builds the program where it is not built, or has changed.
prepare() {
    command -v rt >/dev/null || cannot 'the Rattle kit'\''s command rt is not in PATH'
    target=$root/target
    crate=$root/crates/$name
    program=$crate/out/$name
    if mkdir -p "$target" 2>/dev/null && [ -w "$target" ] && [ -w "$crate" ]; then
        # one build at a time, where the system has flock
        exec 9>"$target/programs.lock"
        if command -v flock >/dev/null; then flock 9; fi
        [ -x "$program" ] || echo "$name: proving and building first, which takes some minutes" >&2
        # `rt run` builds only what is proved, and runs it once, here on no input
        (cd "$crate" && rt run) >"$target/$name.log" 2>&1 </dev/null || { cat "$target/$name.log" >&2; exit 2; }
        exec 9>&-
    elif [ ! -x "$program" ]; then
        cannot "not built, and $root cannot be written to"
    fi
}

# Keeps standard input in the file $kept/input, up to a number of bytes, so that a bad line can be looked at; the rest is left unread.
keep() {
    kept=$(mktemp -d) || cannot 'no temporary file can be made'
    trap 'rm -rf "$kept"' EXIT
    trap 'exit 2' HUP INT TERM
    head -c "$1" >"$kept/input" 2>/dev/null || cannot 'standard input could not be read to its end'
}

# Runs the program on what was kept, prints what it prints, and leaves it in $printed.
print() {
    printed=$("$program" <"$kept/input" && echo .) || cannot 'the program could not be run'
    printed=${printed%.}
    [ -n "$printed" ] || exit 2
    printf %s "$printed" 2>/dev/null || cannot 'the listing could not be written'
}

# What can be seen of a bad line, by its number, of the file of a sheet; of a file of sheets a third word is given.
seen() {
    if [ -n "${3-}" ] && [ ! -s "$2" ]; then
        echo ': the sheet has no byte: is there an empty line too many?'
        return
    fi
    line=$(sed -n "${1}p" "$2" | tr -d '\000')
    why= open=
    if [ "$(wc -l <"$2")" -lt "$1" ]; then
        open=yes
        if [ ! -s "$2" ] || [ "$(tail -c 1 "$2" | wc -l)" -eq 1 ]; then
            echo ': the sheet ends before it'
            return
        fi
    fi
    case $line in "$(printf '\357\273\277')"*) why="$why, a byte order mark stands before it" ;; esac
    case $line in *"$(printf '\r')") why="$why, a CR stands at its end" ;; esac
    case $line in *' '*) why="$why, a blank stands in it: fields are separated by one tab" ;; esac
    case $1$line in
    "1site$(printf '\t')"*)
        fields=$(($(printf %s "$line" | tr -cd '\t' | wc -c)))
        [ "$fields" -eq 7 ] || [ "$fields" -eq 9 ] || why="$why, a site line has 7 or 9 numbers, this one has $fields fields"
        ;;
    esac
    [ -n "$open" ] || [ "$(sed -n "${1}p" "$2" | wc -c)" -ne 1 ] || why="$why, it is empty"
    [ -z "$open" ] || why="$why, no LF ends it"
    [ -z "$why" ] || echo ": ${why#, }"
}

# Why a sheet of a file of sheets may be too long: lines that end in CR, which are never empty, or no empty line after it.
too_long() {
    ended=$(tr '\000' '\001' <"$1" | grep -c "$(printf '\r')\$")
    if [ "$ended" -gt 0 ]; then echo ": a CR stands at the end of $ended of its lines"; else echo ': does an empty line stand between the sheets?'; fi
}

# What a refusal of a sheet means: its number, its place, and the file of the sheet, which is looked at for 16; of a file of sheets also the line of the
# file at which the sheet begins, and the sheet is looked at for 17 too.
meaning() {
    at=
    case $1 in
    1) means='no level, or over 50' ;;
    2) means='lists of unequal length, or a result buffer shorter than them' ;;
    3) means='weight out of its range' at="level $2" ;;
    4) means='height out of its range, or not above the one below' at="level $2" ;;
    5) means='mapped value not in its table' at=$(echo 'S_S design,S_1 design,S_S MCE,S_1 MCE' | cut -d, -f"$2") ;;
    6) means='near-fault factor out of its range' at=$(echo 'N_A,N_V,N_A MCE,N_V MCE' | cut -d, -f"$2") ;;
    7) means='unknown site class' ;;
    8) means='R out of its range' ;;
    9) means='I not in its table' ;;
    10) means='alpha-y out of its range' ;;
    11) means='unknown kind of frame' ;;
    12) means='calculated period out of its range' ;;
    16) means="line not as laid out$(seen "$2" "$3" "${4-}")" at="line $2${4:+, line $(($2 + $4 - 1)) of the file}" ;;
    17) means="sheet over 4,096 bytes${4:+$(too_long "$3")}" ;;
    18) means='zone not 1 to 4' ;;
    22) means='over 256 sheets, or over 1,048,832 bytes' ;;
    *) means='a refusal that this script does not know' ;;
    esac
    echo "refusal $1${at:+ at $at}: $means"
}

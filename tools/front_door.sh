# shellcheck shell=sh disable=SC2034,SC2154
# What ./play, ./plan, ./dome, ./check-log, tools/calls and tools/build have in common. Whoever sources it has set script, its own name, crate, that of its program, and here, the tree's root.
program=$here/target/bin/$crate
log=$here/target/build.log  # what rt said when it built a program last

# Ends with an exit status and a sentence on standard error; where a script has set $json, also with an object, which its show_error prints.
stop() {
    status=$1
    shift
    printf '%s: %s\n' "$script" "$*" >&2
    [ -z "${json-}" ] || show_error "$*" 2>/dev/null
    exit "$status"
}

# Whether a file descriptor is open; of standard error it has to be asked before that is turned elsewhere.
is_open() {
    if [ "$1" = 2 ]; then (exec 9>&2); else (eval "exec 9>&$1") 2>/dev/null; fi
}

# Ends where --version is one of several words; how many there are is given.
check_alone() {
    [ "$1" -eq 1 ] || stop 2 "--version stands alone, and $1 words are given: leave out the others"
}

# The version and the commit, on a line.
show_release() {
    version=$(cat "$here/VERSION" 2>/dev/null) || version=unknown
    commit=$(cd "$here" && git describe --always --dirty 2>/dev/null) || commit=unknown
    printf 'Nazgolv version %s, commit %s\n' "$version" "$commit"
}

show_version() {
    show_release || return
    kit=$(rt version 2>/dev/null) || kit=unknown
    printf 'kit %s\nprogram %s\n' "$kit" "$(state)"
}

# ---- what rt proves and builds

# Leaves in $asked what rt is asked for in the folder of the crate, and in $left what it leaves there: a program, or the library for C. A copy of that is $program.
what_rt_leaves() {
    asked=run
    left=crates/$crate/out/$crate
    [ "$crate" = nazgolv ] || return 0
    asked=lib
    left=crates/nazgolv/out/libnazgolv.a
}

# A source that is newer than a file, of crates whose names stand in a word, or crates.txt.
newer_than() {
    file=$1
    names=$2
    set -- "$here/crates.txt"
    for name in $names; do
        [ -d "$here/crates/$name" ] && set -- "$@" "$here/crates/$name"
    done
    find "$@" -path '*/out' -prune -o -type f ! -path '*/must-fail/*' -newer "$file" -print 2>/dev/null | head -n 1
}

# The same of all crates that the program stands on.
newer_source() {
    count_crates
    newer_than "$1" "$needed"
}

# Whether a program is there, or the library.
is_there() {
    case $1 in
    *.a) [ -f "$1" ] ;;
    *) [ -x "$1" ] ;;
    esac
}

# Whether the program can be started, in words.
state() {
    if ! is_there "$program"; then
        echo "${program#"$here"/} is missing"
    elif [ -n "$(newer_source "$program")" ]; then
        echo "${program#"$here"/} is older than its sources"
    else
        echo "${program#"$here"/} is built"
    fi
}

# Whether rt left a newer one, of the sources as they stand, as rt ci does.
is_left() {
    is_there "$here/$left" || return
    [ -z "$(newer_source "$here/$left")" ] || return
    ! is_there "$program" || [ -n "$(find "$here/$left" -newer "$program" 2>/dev/null)" ]
}

# Copies what rt left, whole or not at all.
take() {
    mkdir -p "${program%/*}" 2>/dev/null
    cp "$here/$left" "$program.$$" 2>/dev/null && mv -f "$program.$$" "$program" 2>/dev/null && return
    rm -f "$program.$$" 2>/dev/null
    stop 2 "$left is built, and ${program#"$here"/} can't be written"
}

# Has rt prove and build the program, which starts it too, with no input. What is said goes to the log.
check_crate() { cd "$here/crates/$crate" && rt "$asked" </dev/null >"$log" 2>&1; }

# Leaves in $needed the names of the program's crate and of all that it stands on, and in $crates how many of them crates.txt lists: rt proves these.
count_crates() {
    needed=" $crate "
    before=
    while [ "$before" != "$needed" ]; do
        before=$needed
        crates=0
        while IFS=: read -r name uses; do
            case $needed in
            *" ${name%% *} "*) ;;
            *) continue ;;
            esac
            crates=$((crates + 1))
            for use in $uses; do
                case $needed in
                *" $use "*) ;;
                *) needed="$needed$use " ;;
                esac
            done
        done <"$here/crates.txt"
    done
}

# Whether rt has built a library of the sources as they stand; the words after it are what it stands on, and $kept has those that are built so.
is_kept() {
    stamp=$here/crates/$1/out/rlib/stamp
    [ -f "$stamp" ] && [ -z "$(newer_than "$stamp" "$1")" ] || return
    shift
    for use in "$@"; do
        case $kept in
        *" $use "*) ;;
        *) [ ! -d "$here/crates/$use" ] || return ;;
        esac
    done
}

# Leaves in $had how many of the crates rt need not prove again.
count_kept() {
    had=0
    kept=" "
    before=
    while [ "$before" != "$kept" ]; do
        before=$kept
        while IFS=: read -r name uses; do
            name=${name%% *}
            case $needed in
            *" $name "*) ;;
            *) continue ;;
            esac
            case $kept in
            *" $name "*) continue ;;
            esac
            # shellcheck disable=SC2086
            is_kept "$name" $uses || continue
            kept="$kept$name "
            had=$((had + 1))
        done <"$here/crates.txt"
    done
}

# Leaves in $proved how many crates are proved so far: rt ends each with such a line.
count_proved() {
    proved=$had
    while read -r word _; do
        [ "$word" = logic=proved ] && proved=$((proved + 1))
    done <"$log"
    [ "$proved" -le "$crates" ] || proved=$crates
}

# Counts the proved crates and the seconds on one line of standard error, as long as this script runs.
count_up() {
    seconds=0
    while kill -0 $$ 2>/dev/null; do
        count_proved
        printf '\r%s: rt %s in crates/%s: %s of %s crates proved, %s s ' "$script" "$asked" "$crate" "$proved" "$crates" "$seconds" >&2
        sleep 1 2>/dev/null || return
        seconds=$((seconds + 1))
    done
}

# Proves and builds the program, with a line that counts where standard error is a terminal, and that is empty at the end.
prove() {
    if [ ! -t 2 ]; then
        (check_crate)
        return
    fi
    count_kept
    count_up >/dev/null &
    counter=$!
    (check_crate)
    ended=$?
    kill "$counter" 2>/dev/null
    wait "$counter" 2>/dev/null
    printf '\r%75s\r' '' >&2
    return "$ended"
}

# Makes the log empty, with its folder where that is missing.
begin_log() {
    [ -d "$here/target" ] || mkdir "$here/target" 2>/dev/null
    (: >"$log") 2>/dev/null
}

# Ends where rt failed, with the last lines that it said. The word says what was found before.
build_failed() {
    tail -n 20 "$log" >&2
    stop 2 "$1, and rt $asked in crates/$crate failed: nothing is done; target/build.log has all that rt said"
}

# Proves and builds the program where that is needed.
build() {
    what_rt_leaves
    if is_left; then
        take
        return
    fi
    found=$(state)
    [ "$found" = "${program#"$here"/} is built" ] && return
    command -v rt >/dev/null 2>&1 || stop 2 "$found, and rt, which proves and builds it, is not on the path; README, 'What is needed', names the kit that has it"
    begin_log || stop 2 "$found, and can't be built: target/build.log can't be written"
    count_crates
    printf '%s: %s: it is proved and built first, %s crates, which may take some minutes; what rt says goes to target/build.log\n' "$script" "$found" "$crates" >&2
    prove || build_failed "$found"
    is_there "$here/$left" || stop 2 "rt $asked in crates/$crate left no $left; target/build.log has what rt said"
    take
}

# Makes a file standard input, or says why it can't be; the second word says what the file has to be. Sentences name the file by $input.
take_input() {
    input="standard input"
    if [ "$1" = - ]; then
        is_open 0 || stop 2 "standard input is closed, and - stands for it"
        return
    fi
    input="'$1'"
    [ -e "$1" ] || stop 2 "there is no file '$1'"
    [ -d "$1" ] && stop 2 "'$1' is a directory, not $2"
    [ -r "$1" ] || stop 2 "'$1' can't be read"
    exec <"$1"
}

# A column of a refusal's first row in docs/REFUSALS.md: its number is given, and the cells between.
cell_of() { sed -n "s/^| $1 | $2\([^|]*\) |.*/\1/p" "$here/docs/REFUSALS.md" 2>/dev/null | head -n 1; }

# When a number is given, in the words of docs/REFUSALS.md.
why() {
    when=$(cell_of "$1" '')
    echo "${when:-see docs/REFUSALS.md}"
}

# Says on a line of its own what to do about a refusal, in the words of docs/REFUSALS.md on plans, with what else is to be said.
say_remedy() {
    advice=$(cell_of "$1" '[^|]* | ')
    advice=${advice%%; for the mesh*}$2
    [ -z "$advice" ] || printf '%s: what to do: %s\n' "$script" "${advice#; }" >&2
}

# What the commands of this repository share: they find the kit, prove and build their program where that is due, and run it.
# A command sets `top`, the repository's folder, and `name`, what it calls itself, and sources this file. POSIX sh.
#
#   ready PROGRAM     makes sure that PROGRAM is built of the sources as they stand, and sets `program`, the file to run
#   ask WORDS..       runs it once and prints what it writes; a line of its standard error comes with '! ' before it
#   run WORDS..       runs it in place of this shell
#   out LINE          writes a line to standard output, or ends the command where that cannot be done
#   plain TEXT        prints TEXT so that it keeps to one line and one column
#   say, stop         a line on standard error; `stop` also ends the command, with status 2
#   hold              takes the lock under which one call at a time proves and builds
#
# Programs that are built stand in built/, each under a name that tells what it was built of. So a call that only runs one writes nothing, and
# neither rt, which writes crates/NAME/out/, nor another call takes it away while it is in use.

built=$top/built
newline='
'

# where standard error is closed, a pipe would take its place
(true >&2) || exec 2>/dev/null

say() { printf '%s: %s\n' "$name" "$*" >&2; }
stop() { say "$*"; exit 2; }

out() { printf '%s\n' "$1" 2>/dev/null || stop "standard output cannot be written"; }

# A backslash becomes \\, a tab \t, a new line \n, any other control character \ and its three octal digits. All other bytes stay.
plain() {
    case $1 in
    *[\\[:cntrl:]]*)
        printf '%s\n' "$1" | LC_ALL=C awk '
            BEGIN { for (i = 1; i < 256; i++) code[sprintf("%c", i)] = i }
            {
                if (NR > 1) printf "\\n"
                for (i = 1; i <= length($0); i++) {
                    c = substr($0, i, 1)
                    if (c == "\\") printf "\\\\"
                    else if (c == "\t") printf "\\t"
                    else if (code[c] < 32 || code[c] == 127) printf "\\%03o", code[c]
                    else printf "%s", c
                }
            }'
        ;;
    *) printf %s "$1" ;;
    esac
}

# ---- the kit, and how a program that it built is run

# Sets `kit`, the kit's folder: RATTLE_HOME, or that of the rt on the path, or that of the last build here; and `kit_id`, what rt version prints.
find_kit() {
    kit=${RATTLE_HOME:-}
    if [ -z "$kit" ] && rt=$(command -v rt); then
        while [ -L "$rt" ]; do
            link=$(readlink "$rt")
            case $link in /*) rt=$link ;; *) rt=$(dirname -- "$rt")/$link ;; esac
        done
        kit=$(CDPATH='' cd -- "$(dirname -- "$rt")/.." && pwd -P)
    fi
    if [ -z "$kit" ] && [ -r "$built/kit" ]; then IFS= read -r kit <"$built/kit"; fi
    [ -n "$kit" ] || stop "rt is not on the path. The Rattle kit is needed: $(cat "$top/kit.txt")"
    [ -r "$kit/KIT-ID" ] || stop "there is no Rattle kit at $kit"
    IFS= read -r kit_id <"$kit/KIT-ID" || :
    [ "$(uname -m)" = x86_64 ] || stop "the Rattle kit at $kit has nothing for this kind of machine, $(uname -m)"
}

# As rt runs it: a program for x86-64 Linux.
run() { exec "$program" "$@"; }

# Standard error is lent as descriptor 4: where it is a terminal, the program shows there how far it is.
ask() {
    {
        run "$@" 2>&1 >&3 3>&- | while IFS= read -r line || [ -n "$line" ]; do printf '! %s\n' "$line"; done
    } 3>&1 4>&2
}

# ---- what a program is built of

# Prints the line 'NAME:DEPS' of crates.txt for PROGRAM and for each crate of the repository that it reaches.
reached() { # PROGRAM
    awk -v wanted="$1" '
        function visit(n,    i, k, dep) {
            if (!(n in deps) || n in seen) return
            seen[n] = 1
            print n ":" deps[n]
            k = split(deps[n], dep, " ")
            for (i = 1; i <= k; i++) visit(dep[i])
        }
        { sub(/#.*/, ""); at = index($0, ":") }
        at { n = substr($0, 1, at - 1); gsub(/[ \t]/, "", n); deps[n] = substr($0, at + 1) }
        END { visit(wanted) }' "$top/crates.txt"
}

# Sets `sum`, told by the kit, by those lines, and by the contents of every file of those crates that rt reads to prove, build and try PROGRAM.
fingerprint() { # PROGRAM
    lines=$(reached "$1")
    [ -n "$lines" ] || stop "crates.txt has no crate $1"
    sum=$(
        CDPATH='' cd -- "$top/crates" || exit
        IFS=$newline parts=''
        for line in $lines; do
            for part in src specs proofs stdin stdout args data; do
                [ ! -e "${line%%:*}/$part" ] || parts="$parts$newline${line%%:*}/$part"
            done
        done
        # shellcheck disable=SC2086
        { printf '%s\n' "$kit_id" "$lines"; find $parts -type f -exec sha256sum {} + | LC_ALL=C sort; } | sha256sum
    )
    sum=$(printf %.16s "$sum")
}

# ---- proving and building

ready() { # PROGRAM
    find_kit
    fingerprint "$1"
    if [ ! -x "$built/$1-$sum" ]; then
        (build "$1") || exit 2
        fingerprint "$1"
    fi
    program=$built/$1-$sum
    [ -x "$program" ] || stop "the sources have changed while they were proved; call again"
}

# In a subshell, with which the lock goes. It checks each step itself: set -e does not hold in it.
build() { # PROGRAM
    if [ ! -w "$top" ] || { [ -e "$built" ] && [ ! -w "$built" ]; }; then
        stop "the program is not built of the sources as they stand, and you may not write here: whoever owns $top runs ./$name --build"
    fi
    hold
    # a call that this one waited for may have built it
    fingerprint "$1"
    [ ! -x "$built/$1-$sum" ] || exit 0
    if [ "$kit_id" != "$(cat "$top/kit.txt")" ]; then
        say "warning: this kit is $kit_id; the one that the proofs were made with is $(cat "$top/kit.txt")"
    fi
    set -- "$1" "$sum" "$built/$1"-*
    if [ -e "$3" ]; then
        say "the sources or the kit are not those that the program was built of: proving again what has changed"
    else
        say "proving and building the program first; from nothing this takes some minutes"
    fi
    made=$top/crates/$1/out/$1 new=$built/.$1.$$
    rm -f -- "$made"
    # rt builds what is proved where it is to run it: here on an empty input and with no words, on which no program of this repository writes a file. What rt says is
    # shown up to there
    (CDPATH='' cd -- "$top/crates/$1" && "$kit/bin/rt" run) </dev/null 2>&1 >/dev/null | sed '/^rt: running out\//,$d' >&2
    [ -x "$made" ] || stop "the program is not proved, as said above"
    fingerprint "$1"
    [ "$sum" = "$2" ] || stop "the sources have changed while they were proved; call again"
    if ! { cp -- "$made" "$new" && cmp -s -- "$made" "$new"; }; then
        rm -f -- "$new"
        stop "$made could not be copied, or was built once more meanwhile; call again"
    fi
    printf '%s\n' "$kit" >"$built/kit" && mv -f -- "$new" "$built/$1-$sum" || stop "$built cannot be written"
    # programs of other sources go when they are a week old; a call that still uses one has ended by then
    find "$built" -name "$1-*" ! -name "$1-$sum" -type f -mtime +7 -exec rm -f {} +
}

hold() {
    mkdir -p "$built" || stop "$built cannot be made"
    if command -v flock >/dev/null; then
        exec 9>"$built/lock" || stop "$built/lock cannot be written"
        flock -n 9 && return
        say "another call is proving and building here: waiting for it"
        flock 9 || stop "$built/lock cannot be locked"
        return
    fi
    # Without flock the lock is a link that names its owner. One whose owner is gone is taken away: by one call at a time, which has seen the owner gone and then
    # finds the link still there, so that it never takes that of a new owner.
    told=''
    until ln -s "$$" "$built/owner" 2>/dev/null; do
        owner=$(readlink "$built/owner") || continue
        if [ -d "/proc/$owner" ]; then
            [ -n "$told" ] || say "another call is proving and building here, process $owner: waiting for it"
            told=yes
            sleep 1
        elif mkdir "$built/sweep" 2>/dev/null; then
            [ "$(readlink "$built/owner")" != "$owner" ] || rm -f "$built/owner"
            rmdir "$built/sweep"
        fi
    done
    trap 'rm -f "$built/owner"' EXIT
    trap 'exit 130' INT
    trap 'exit 143' HUP TERM
}

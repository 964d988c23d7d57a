# What the commands at the root share: a program of crates/, proved, built and run. A command sets `here`, the clone's folder, and reads
# this file; `name` is the command's and the program's.
#
# The program is proved and built on the first call, and again once a file of crates/ is newer or the kit is another.
name=$(basename "$0")
program=$here/crates/$name/out/$name
kit=$(rt version < /dev/null)

# What the program printed, and what it told on standard error. A program of the kit always exits 0: these two, and whether they are
# whole, give the status. A signal ends by `exit` too, or they and the lock would stay.
lock=$here/target/building
new=
trap 'rm -rf "$new"; [ "$(readlink "$lock")" != $$ ] || rm -f "$lock"' EXIT
trap 'exit 129' HUP
trap 'exit 130' INT
trap 'exit 143' TERM
new=$(mktemp -d) || exit 2
text=$new/text
told=$new/told

stale() {
    [ ! -x "$program" ] || [ "$(cat "$program.kit" 2> /dev/null)" != "$kit" ] ||
        [ -n "$(find "$here/crates" "$here/crates.txt" -name out -prune -o -newer "$program" -type f -print | head -n 1)" ]
}

# One call builds at a time. The lock is a link, made in one go with the process that it names; where that is gone, or
# its number is another's by now, the lock is nobody's.
lives() { tr '\0' '\n' 2> /dev/null < "/proc/$1/cmdline" | grep -qxE '(.*/)?(assemble|run)'; }
lock_target() {
    waits=no
    until ln -s $$ "$lock" 2> /dev/null; do
        # it is gone by now, or ln says why none can be made
        holder=$(readlink "$lock") || { ln -s $$ "$lock" || exit 2; return; }
        if lives "$holder"; then
            [ "$waits" = yes ] || echo "$name: waits for process $holder, which is building" >&2
            waits=yes
            sleep 1
        elif [ "$(readlink "$lock")" = "$holder" ]; then
            rm -f "$lock"
        fi
    done
}

# The program is as old as the build's start: an edit made meanwhile is newer.
built() {
    : > "$here/target/$name.began"
    "$here/lib/built" "$name" 2> /dev/null &&
        touch -r "$here/target/$name.began" "$program" && echo "$kit" > "$program.kit"
}

if stale; then
    mkdir -p "$here/target"
    lock_target
    if stale; then
        echo "$name: proving and building the program first; from nothing this takes about ten minutes on two cores" >&2
        built || { echo "$name: not built; see $here/target/$name.log" >&2; exit 2; }
    fi
    rm -f "$lock"
fi

# Nothing of the environment may add to what the program says.
unset LD_PRELOAD LD_AUDIT LD_DEBUG

ran() { "$program" "$@"; }

# Whether a refusal was printed, whole.
is_refused() {
    awk -v lines="$(wc -l < "$text")" '
        NR == 1 { number = /^refused=[0-9]+$/ }
        NR == 2 { line = /^line=[0-9]+$/ }
        NR == 3 { column = /^column=[0-9]+$/ }
        END { exit !(number && line && column && lines == 3 && NR == 3) }' "$text"
}

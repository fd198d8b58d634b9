# Read by ./kpn and ./hox, which say in `top` where they lie: `ready NAME ARGUMENTS` brings the program, if it isn't there or
# something of which it is made has changed since. Each call of a program waits for this, so it looks at no other crates than
# those that tools/programs.py noted beside the program, and starts one process alone.
ready() {
    program=$top/crates/$1/out/$1
    if [ ! -x "$program" ] || [ ! -e "$program.made_from" ] || [ ! -e "$program.crates" ] || [ -n "$(newer)" ]; then
        "$top/tools/program" bring "$@" || exit 1
    fi
}

# The first source of the program that is newer than the note of what it was made from, if one is.
newer() {
    read -r crates < "$program.crates"
    set -- "$top/crates.txt"
    for crate in $crates; do
        set -- "$@" "$top/crates/$crate/src" "$top/crates/$crate/specs" "$top/crates/$crate/proofs"
    done
    exec find "$@" -newer "$program.made_from" -print -quit 2> /dev/null
}

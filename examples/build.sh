# Sourced by the examples: builds a program of this repository where it is not built yet, from the top folder.
#
#   build_program NAME WORD ..     builds crates/NAME/out/NAME and runs it once with these words
#
# rt proves every crate below the program before it builds it, which takes half an hour on four processors where nothing
# was proved before, and seconds after that. Its own lines are printed as they come: each crate that is proved, and how
# many functions of the next one are. Returns 77 where rt is missing, 1 where the program was not built.
build_program() {
    local name=$1 log status
    shift
    [ -x "crates/$name/out/$name" ] && return 0
    if ! command -v rt >/dev/null 2>&1; then
        echo "a tool is missing: rt, of the Rattle kit, which proves and builds $name"
        return 77
    fi
    echo "building $name: every crate below it is proved first"
    log=$(mktemp)
    (cd "crates/$name" && rt run -- "$@") 2>&1 | tee "$log" | grep --line-buffered -E '^(rt: |so far|== )'
    status=0
    if [ ! -x "crates/$name/out/$name" ]; then
        tail -n 20 "$log"
        echo "$name was not built"
        status=1
    fi
    rm -f "$log"
    return "$status"
}

# Which sources there are, and when they changed. Read by scripts that have set `top`.

# A source of the checkout $1 that is newer than the file $2, if there is one; or a folder in which one was added or removed.
# Crates that test or time the program aren't parts of it.
newer_source() {
    checkout=$1 than=$2
    set -- "$checkout/crates.txt"
    for crate in "$checkout"/crates/*; do
        case ${crate##*/} in
        test_* | bench_*) ;;
        *) set -- "$@" "$crate/src" "$crate/specs" "$crate/proofs" ;;
        esac
    done
    find "$@" -newer "$than" -print -quit 2>/dev/null || :
}

# The sum of the sources of the checkout $1; nothing if they can't be read.
sum_of_sources() {
    sources=$("$top/bin/sources" "$1") && printf '%s\n' "$sources" | sha256sum | cut -d ' ' -f 1
}

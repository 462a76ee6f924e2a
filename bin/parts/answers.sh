# For bin/delorean: the answers to --help and --version. They need no program.

. "$top/bin/parts/facts.sh"

tell_help() {
    echo "delorean records the order in which a machine's chunks of instructions commit, and replays it."
    echo
    cat "$top/bin/parts/synopsis"
    cat <<'END'

  delorean --help     prints this text
  delorean --version  prints the version, and which program is taken
  delorean --path     prints where it is; it may be copied

END
    if [ -d "$top/crates" ]; then
        echo "The manual is docs/delorean.1.md. README.md has an example, and hunt/README.md the commands that look at runs."
    else
        echo "The manual is \`man delorean\`. \`man delorean-trace\` begins with the commands that look at runs."
    fi
}

commit() {
    [ -e "$top/.git" ] && git -C "$top" describe --always --dirty --abbrev=12 --exclude '*' 2>/dev/null || echo unknown
}

of_older_sources() {
    [ "$(fact "$1" sources)" = "$(sum_of_sources "$top")" ] || echo ", which is of older sources than these"
}

# What is known of the program, and where from.
tell_program() {
    release=$top/release/README.md
    if [ ! -x "$program" ]; then
        echo "program none of these sources, so the next call proves and builds it"
    elif is_known "$program" "$release"; then
        echo "program the release$(of_older_sources "$release")"
        echo "kit $(fact "$release" kit)"
    elif is_known "$program" "$top/out/facts"; then
        echo "program a proved build"
        echo "kit $(fact "$top/out/facts" kit)"
    else
        echo "program another, of which nothing is known here"
    fi
}

# What is installed has these lines in a file.
tell_version() {
    if [ -f "$top/out/version" ]; then
        cat "$top/out/version"
        return
    fi
    echo "delorean $(cat "$top/VERSION")"
    echo "commit $(commit)"
    choose || program=
    tell_program
    [ -z "$program" ] || echo "path $(readlink -f "$program")"
}

# For bin/delorean: proves and builds the program, if there is none of the present sources.

said=$top/out/build.txt

# How many crates the program has.
count_crates() {
    "$top/bin/sources" "$top" | grep -c :
}

# For each crate that is proved the build prints a line `crate NAME: ..`, and none for one that was proved before. On a terminal
# all are shown in one line.
show_progress() {
    count=$(count_crates)
    done=0
    while IFS= read -r line; do
        case $line in
        'crate '*:*)
            done=$((done + 1))
            name=${line#crate }
            if [ -t 2 ]; then
                printf '\r\033[Kdelorean: proved %s (%s of at most %s)' "${name%%:*}" "$done" "$count" >&2
            else
                echo "delorean: proved ${name%%:*} ($done of at most $count)" >&2
            fi
            ;;
        *': error'*) printf '%s\n' "$line" >&2 ;;
        esac
    done
    [ ! -t 2 ] || printf '\r\033[K' >&2
}

tell_of_release() {
    [ ! -x "$top/release/delorean" ] ||
        echo "delorean: the release is of other sources than these; DELOREAN=release takes it all the same" >&2
}

tell_of_prover() {
    cat >&2 <<'END'
delorean: there is no program of these sources, and it can't be built: the prover `rt` isn't on the PATH
delorean: rt is part of the Rattle kit, which isn't in this repository (README.md, "What is trusted", says which kit); the
delorean: maintainers can tell you where to get it
END
}

tell_of_failure() {
    echo "delorean: the build failed; the last lines of what it said, which is all in out/build.txt:" >&2
    tail -n 15 "$said" | sed 's/^/    /' >&2
}

# Whether the build ended well shows by what it made: `rt run` ends with the status of the program, which has no words here.
prove() {
    echo "delorean: proving and building the program; the first time this takes long, and later less" >&2
    rm -f "$made"
    (cd "$top/crates/delorean" && rt run) </dev/null 2>&1 | tee "$said" | show_progress
    [ -x "$made" ]
}

# One call builds; another that comes meanwhile waits, and then finds the program built.
make_alone() {
    mkdir -p "$top/out" || fail "the program can't be built, because the folder out can't be written"
    exec 9>"$top/out/lock"
    flock -n 9 || {
        echo "delorean: the program is being built by another call; waiting for it" >&2
        flock 9
        ! find_program || return 0
    }
    begin
    trap 'end' EXIT
    trap '[ ! -t 2 ] || echo >&2; echo "delorean: stopped; what is proved so far is kept" >&2; exit 130' INT TERM
    prove || {
        tell_of_failure
        return 1
    }
    put_in_place "$made" "$(rt version)"
}

make_program() {
    tell_of_release
    command -v rt >/dev/null || {
        tell_of_prover
        return 1
    }
    (make_alone)
}

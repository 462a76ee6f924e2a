# For bin/delorean, if out/delorean isn't there or a source is newer: finds a program that is of the present sources by their
# sum. None is built here.

made=$top/crates/delorean/out/delorean
. "$top/bin/parts/facts.sh"

# What is put in place gets the time of the file `begun`, so a source that changes meanwhile is newer. If nothing can be written
# there is none, and the release is taken where it is.
begin() {
    begun=
    if mkdir -p "$top/out" 2>/dev/null; then
        begun=$(mktemp "$top/out/begun.XXXXXX" 2>/dev/null) || begun=
    fi
    present=$(sum_of_sources "$top") || fail "the sources can't be read"
}

end() {
    [ -z "$begun" ] || rm -f "$begun"
}

# Whether the text $2 says that the program $1 is of the present sources.
is_of_present() {
    [ "$(fact "$2" sources)" = "$present" ] && is_known "$1" "$2"
}

# Puts the program $1 at out/delorean, with what is known of it beside it: the kit $2 and the present sources. If one of these has
# changed meanwhile, it isn't known which ones the program is of.
put_in_place() {
    new=$(mktemp "$top/out/new.XXXXXX") || return 1
    [ -z "$(newer_source "$top" "$begun")" ] || present=unknown
    cp "$1" "$new" && chmod 755 "$new" && touch -r "$begun" "$new" &&
        printf '    %s\n' "kit $2" "sources $present" "program $(sum_of_file "$new")" >"$new.facts" &&
        mv -f "$new.facts" "$top/out/facts" && mv -f "$new" "$program" && return
    rm -f "$new" "$new.facts"
    return 1
}

take_built() {
    is_of_present "$program" "$top/out/facts" || return 1
    [ -z "$begun" ] || touch -r "$begun" "$program"
}

# What rt has left, in a gate for example, without a call of this script.
take_made() {
    [ -n "$begun" ] && [ -x "$made" ] && [ -z "$(newer_source "$top" "$made")" ] && put_in_place "$made" "$(rt version 2>/dev/null)"
}

take_release() {
    is_of_present "$top/release/delorean" "$top/release/README.md" || return 1
    if [ -n "$begun" ]; then
        put_in_place "$top/release/delorean" "$(fact "$top/release/README.md" kit)"
    else
        program=$top/release/delorean
    fi
}

find_program() {
    begin
    found=0
    take_built || take_made || take_release || found=1
    end
    return "$found"
}

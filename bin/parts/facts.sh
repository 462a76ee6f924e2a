# What is known of a program are lines in a text, of four blanks, a word and its value: `version`, the `kit` that proved it, and
# the SHA-256 of its `sources` and of the `program` itself. release/README.md has those of the release, and out/facts those of
# out/delorean.

# The value of the word $2 in the text $1; nothing if it has none.
fact() {
    [ ! -f "$1" ] || sed -n "s/^    $2  *//p" "$1"
}

sum_of_file() {
    sha256sum <"$1" | cut -d ' ' -f 1
}

# Whether the text $2 speaks of the program $1.
is_known() {
    [ -f "$1" ] && [ "$(fact "$2" program)" = "$(sum_of_file "$1")" ]
}

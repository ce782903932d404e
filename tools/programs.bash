# Where the programs of this repository stand, and whether they were made of its sources. Read by ./relay, tools/compile and
# ./test's scripts; `top` is the repository's folder.
#
#   built/KIND/NAME           names COMMIT/NAME in its one line, set by rename; KIND is proved or unproved, NAME a program's crate
#   built/KIND/COMMIT/NAME    the program; beside it NAME.sources has the digest of the sources that it was made of
#   built/prove.log, built/compile-NAME.log   what the last build said
#
# Where built/ can't be written, the same lies below the user's cache folder. A program is only taken for one of these sources
# where their digests are the same: times of files change with each checkout, and say nothing of their content.
cache=${XDG_CACHE_HOME:-${HOME:-/tmp}/.cache}/jupwachay/$(printf %s "$top" | sha256sum | cut -c 1-16)
# The program that is asked for, and those whose sources are one: relay_cli and relay_chain are proved together.
name=relay_cli
programs=(relay_cli relay_chain)
# The program that stands, and the digest of the sources once it is known.
program=
digest=

say() {
    echo "relay: $*" >&2
}

fail() {
    say "$@"
    exit 125
}

# The crates that the programs are made of: themselves, and all that they stand on by crates.txt.
crates_of() {
    sed 's/#.*//' "$top/crates.txt" | awk -F: -v wanted="$*" '
        NF > 1 { split($1, words, " "); needs[words[1]] = $2 }
        function visit(crate,   i, many, below) {
            if (!(crate in needs) || (crate in seen)) return
            seen[crate]
            print crate
            many = split(needs[crate], below, " ")
            for (i = 1; i <= many; i++) visit(below[i])
        }
        END { many = split(wanted, top, " "); for (at = 1; at <= many; at++) visit(top[at]) }'
}

# The digest of the programs' sources in a copy of the repository: contracts and proofs are among them.
digest_of() {
    (
        cd -- "$1" || exit
        for crate in $(crates_of "${programs[@]}"); do
            for part in src specs proofs; do
                [ -d "crates/$crate/$part" ] && printf 'crates/%s/%s\0' "$crate" "$part"
            done
        done | xargs -0 sh -c 'find "$@" -type f \( -name "*.rt" -o -name "*.antt" \) -print0' -- |
            LC_ALL=C sort -z | xargs -0 sha256sum | sha256sum | cut -c 1-64
    )
}

# Sets `program` to the one of this kind that stands: one that was made of these sources first.
find_standing() {
    local store named first=
    for store in "$top/built" "$cache"; do
        named=$(cat "$store/$1/$name" 2>/dev/null) && [ -x "$store/$1/$named" ] || continue
        program=$store/$1/$named
        fits && return
        first=${first:-$program}
    done
    program=$first
    [ -n "$program" ]
}

# Whether the program was made of the sources as they stand. They are read once in a run.
fits() {
    [ -n "$digest" ] || digest=$(digest_of "$top")
    [ "$(cat "$program.sources" 2>/dev/null)" = "$digest" ]
}

# Whether a program of this kind stands that was made of these sources.
stands() {
    program=
    find_standing "$1" && fits
}

# The commit that the program was made of, or `none` where the sources were those of no commit.
commit_of() {
    cat "$(dirname "$program")/commit"
}

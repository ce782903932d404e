# For scripts in a folder with `tapes` and `reports`.

# Whether the report of a tape is whole.
is_taken() {
    [ -f "reports/$1" ] && tail -n 1 "reports/$1" | grep -q '^end '
}

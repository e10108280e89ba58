# What passed and what failed: its counts stand here alone. To be sourced.

passed=0
failed=0

# right, wrong WHAT.. (counts; the second prints what is wrong)
right() {
    passed=$((passed + 1))
}
wrong() {
    failed=$((failed + 1))
    echo "$*"
}

# tell_counts (prints them as the last line; the status says whether nothing failed)
tell_counts() {
    echo "$passed passed, $failed failed"
    [ "$failed" -eq 0 ]
}

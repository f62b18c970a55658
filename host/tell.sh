# Sourced by the host tests that are scripts: each test is told once, and counted. `told` prints the last line, 'N
# passed, M failed', and fails where a test did, or where there was none.
passed=0 failed=0

tell() { # tell NAME STATUS: a status of 0 has passed
    if [ "$2" -eq 0 ]; then
        passed=$((passed + 1))
        echo "ok     $1"
    else
        failed=$((failed + 1))
        echo "FAILED $1"
    fi
}

told() {
    echo "$passed passed, $failed failed"
    [ "$failed" -eq 0 ] && [ "$passed" -gt 0 ]
}

# counted WHAT COMMAND..: one check that passes or fails, for the scripts that test a program: they set $tested, and end in how many did
passed=0 failed=0
counted() {
    what=$1
    shift
    if "$@"; then
        passed=$((passed + 1))
    else
        failed=$((failed + 1))
        echo "$tested: $what failed"
    fi
}

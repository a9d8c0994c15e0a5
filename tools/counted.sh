# For scripts that count tests, which source it with `set -eu`. The folder $room is theirs, and is removed at the end.
room=$(mktemp -d)
trap 'rm -rf "$room"' EXIT
trap 'exit 1' INT TERM
passed=0
failed=0

# Runs a command, the words after the name of the test, and counts whether it succeeds. A function ends at the first
# command that fails: inside `if`, it would not.
check() {
    name=$1
    shift
    set +e
    (set -e && "$@") >"$room/said" 2>&1
    status=$?
    set -e
    if [ "$status" = 0 ]; then
        echo "ok $name"
        passed=$((passed + 1))
    else
        echo "FAILED $name"
        cat "$room/said"
        failed=$((failed + 1))
    fi
}

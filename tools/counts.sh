# shellcheck shell=bash
# For a script that counts: '. tools/counts.sh || exit 2' from the repository's folder. It counts what passed and what failed, names
# itself before what it says of a failure, and ends with 'finish'.
passed=0 failed=0

pass() { passed=$((passed + 1)); }
fail() { # WHAT
    echo "${0##*/}: $1"
    failed=$((failed + 1))
}
verdict() { # WHAT STATUS
    if [ "$2" -eq 0 ]; then pass; else fail "$1"; fi
}

# The last line, 'N passed, M failed'; the exit status is 0 exactly if nothing failed.
finish() {
    echo "$passed passed, $failed failed"
    [ "$failed" -eq 0 ]
    exit
}

# Runs a command that ends in such a line, keeps what it says in a file, and adds its counts. One that ends otherwise, or with a
# status other than 0, or that counted nothing, has failed, whatever its line says.
counted() { # FILE COMMAND...
    local file=$1 status p=0 f=0
    shift
    "$@" 2>&1 | tee "$file"
    status=${PIPESTATUS[0]}
    if [[ $(tail -n 1 "$file") =~ ^(0|[1-9][0-9]{0,8})\ passed,\ (0|[1-9][0-9]{0,8})\ failed$ ]]; then
        p=${BASH_REMATCH[1]} f=${BASH_REMATCH[2]}
        passed=$((passed + p)) failed=$((failed + f))
        [ "$f" -ne 0 ] || { [ "$status" -eq 0 ] && [ "$p" -ne 0 ]; } || fail "$* ended with status $status and counted $p"
    else
        fail "$* did not end in its count"
    fi
}

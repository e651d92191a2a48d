# What test scripts of one argument, PATH_TO_STATIC_LIB, share; for bash. A script sets subject, sources this, and ends
# with finish_tests, whose last line is "N passed, M failed" and whose status is 1 if any failed.
set -u

if [ $# -ne 1 ] || [ ! -f "$1" ]; then
    echo "usage: $0 PATH_TO_STATIC_LIB" >&2
    echo "0 passed, 1 failed"
    exit 1
fi

library=$(cd "$(dirname "$1")" && pwd)/$(basename "$1")
top=$(cd "$(dirname "${BASH_SOURCE[0]}")/.." && pwd)
build=$(mktemp -d)
trap 'rm -rf "$build"' EXIT

passed=0
failed=0
sanitizers=(-fsanitize=address,undefined -fno-sanitize-recover=all)

verdict() { # NAME STATUS
    if [ "$2" -eq 0 ]; then
        echo "ok $subject: $1"
        passed=$((passed + 1))
    else
        echo "FAILED $subject: $1"
        failed=$((failed + 1))
    fi
}

# Run a command, which counts as one test.
try() { # NAME COMMAND...
    "${@:2}"
    verdict "$1" $?
}

# Whether a compiler can build this program with the options given.
can_build() { # PROGRAM COMPILER...
    command -v "$2" >/dev/null 2>&1 && printf '%s\n' "$1" | "${@:2}" -x c - -o "$build/can" 2>/dev/null
}

# Whether gcc has its sanitizers; a line says so if not.
has_sanitizers() {
    can_build 'int main(void) { return 0; }' gcc "${sanitizers[@]}" && "$build/can" && return
    echo "left out: the sanitized build, for gcc has no sanitizers here"
    return 1
}

finish_tests() {
    echo "$passed passed, $failed failed"
    [ "$failed" -eq 0 ]
}

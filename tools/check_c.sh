#!/bin/sh
# Compiles and runs the C programs of examples/ and tests/ on the library:
#
#     tools/check_c.sh [LIBRARY]
#
# One line for each step, and behind a failed one what it said. Exits with 1 where one failed.
set -u
from=$PWD
cd "$(dirname "$0")/.." || exit 2
case ${1:-} in
    "") library=target/staticlib/libhirqazhom.a ;;
    /*) library=$1 ;;
    *) library=$from/$1 ;;
esac
if [ ! -f "$library" ]; then
    echo "there is no $library: \`tools/staticlib.sh\` makes it" >&2
    exit 2
fi
work=$(mktemp -d) || exit 2
trap 'rm -rf "$work"' EXIT
trap 'exit 2' INT TERM
programs="examples/recorded_call examples/two_decoders tests/carving tests/replay"
passed=0
failed=0

# step NAME COMMAND..: one line
step() {
    name=$1
    shift
    if "$@" >"$work/said" 2>&1; then
        echo "ok $name"
        passed=$((passed + 1))
    else
        echo "FAILED $name"
        cat "$work/said"
        failed=$((failed + 1))
    fi
}

# absent COMMAND: fails, and says what to do about it
absent() {
    echo "$1 is not there: install the package $1"
    return 1
}

# noticed: whether a parameter that is changed in the library alone fails the check of the declarations
noticed() {
    mkdir -p "$work/tree/rust" || return 1
    cp -r crates include tools "$work/tree" && cp -r rust/src "$work/tree/rust" || return 1
    sed -i 's/^    loglikes: &\[f32\],$/    loglikes: \&[u32],/' "$work/tree/crates/hirqazhom/src/lib.rt"
    ! python3 "$work/tree/tools/declare.py" --check
}

# compile LANGUAGE COMPILER..: each program without a warning
compile() {
    language=$1
    shift
    for program in $programs; do
        step "$program.c, $language" "$@" -O2 -Wall -Wextra -Wpedantic -Wconversion -Werror -Iinclude -c "$program.c" -o "$work/unit.o"
    done
}

# build FLAGS: the programs, into a folder of their own, so that none of an earlier build is run
build() {
    mkdir "$bin" || return 1
    for program in $programs; do
        gcc -std=c99 $1 -Iinclude "$program.c" "$library" -o "$bin/$(basename "$program")" || return 1
    done
}

# recorded_call RUNNER..: whether the example prints its two lines
recorded_call() {
    "$@" "$bin/recorded_call" >"$work/lines" || return 1
    diff - "$work/lines" <<'LINES'
frames 2..5  course 1  dropped stitch
frames 5..8  course 3  carrier two
LINES
}

# run WAY FLAGS RUNNER..: builds the programs and runs them all
run() {
    way=$1
    bin=$work/$way
    step "build, $way" build "$2"
    shift 2
    step "examples/recorded_call, $way" recorded_call "$@"
    step "examples/two_decoders, $way" "$@" "$bin/two_decoders"
    step "tests/carving, $way" "$@" "$bin/carving"
    for script in decoder silence search shuffle course line; do
        step "tests/replay of $script, $way" "$@" "$bin/replay" "oracle/sample/$script.script" "oracle/sample/$script.answers"
    done
}

step "the declarations are those of the library" python3 tools/declare.py --check
step "a changed parameter is noticed" noticed
compile C99 gcc -std=c99
compile C++17 g++ -std=c++17 -x c++
if command -v clang >/dev/null; then
    compile "C99 by clang" clang -std=c99
else
    echo "clang is not there: nothing is compiled by it"
fi
run plainly -O2
run sanitizers "-g -O1 -fsanitize=address,undefined -fno-sanitize-recover=all" env ASAN_OPTIONS=detect_leaks=1
if command -v valgrind >/dev/null; then
    run valgrind "-g -O1" valgrind --error-exitcode=9 --leak-check=full -q
else
    step valgrind absent valgrind
fi
echo "$passed passed, $failed failed"
[ "$failed" -eq 0 ]

# What the tests' scripts share, in plain sh. A script goes to the top folder, takes this in (`. tests/lib/verdict.sh`), says
# what it found by `verdict`, and ends with `end`. What it writes goes to $scratch, which is removed at its exit.
# shellcheck shell=sh
scratch=$(mktemp -d) || exit 2
trap 'rm -rf "$scratch"' EXIT
passed=0 failed=0

# show: what is shown with a failure: nothing, where the script does not define it again
show() { :; }

# verdict LABEL STATUS: the status is 0 where the test holds
verdict() {
    if [ "$2" -eq 0 ]; then passed=$((passed + 1)); else failed=$((failed + 1)); echo "FAILED: $1"; show; fi
}

# none LABEL FILE: the file is there and says nothing
none() {
    [ -f "$2" ] && [ ! -s "$2" ]
    verdict "$1" $?
    head -n 5 "$2"
}

# end: the last line, which the gate reads, and the status that agrees with it
end() {
    echo "$passed passed, $failed failed"
    [ "$failed" -eq 0 ]
    exit
}

# stop WHY: the test cannot go on, which is a failure
stop() {
    verdict "$1" 1
    end
}

# needs FILE..: stops where one of these is not built
needs() {
    for file in "$@"; do
        [ -f "$file" ] || stop "no $file: sh tools/build builds what tests need"
    done
}

# builds PACKAGE: builds a package in Rust, its programs into $scratch/target/release; stops where it does not compile
builds() {
    CARGO_TARGET_DIR=$scratch/target cargo build --release --offline --manifest-path "$1/Cargo.toml" >"$scratch/log" 2>&1 ||
        { tail -n 20 "$scratch/log"; stop "$1 does not compile"; }
}

# counted STATUS LOG: what a program's last line counts, in n and m; false where it does not end so, nothing passed, or its
# status does not agree
counted() {
    n=$(tail -n 1 "$2" | sed -n 's/^\([0-9][0-9]*\) passed, [0-9][0-9]* failed$/\1/p')
    m=$(tail -n 1 "$2" | sed -n 's/^[0-9][0-9]* passed, \([0-9][0-9]*\) failed$/\1/p')
    [ -n "$n" ] && [ -n "$m" ] && [ "$n" -gt 0 ] && { [ "$1" -eq 0 ] || [ "$m" -gt 0 ]; }
}

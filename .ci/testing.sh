# What the tests in bash share: it is read by them, and is no test itself. `label` is what each line begins with.
passed=0 failed=0
# hold WHAT COMMAND..: WHAT is so, if the command ends with 0. Where it is not, the end of the file `said` is printed, if there is one.
hold() {
    if "${@:2}"; then
        echo "$label: $1"
        passed=$((passed + 1))
    else
        echo "$label: FAILED: $1"
        failed=$((failed + 1))
        [ ! -s "${said:-}" ] || tail -n 3 "$said"
    fi
}
# has TOOL WHAT: whether the tool is at hand; else it is said what is left out.
has() { type -P "$1" >/dev/null || { echo "$label: $2 left out, since $1 is not at hand"; return 1; }; }
# The last line; it ends with 0 where nothing failed.
end() {
    echo "$passed passed, $failed failed"
    [ "$failed" -eq 0 ]
}

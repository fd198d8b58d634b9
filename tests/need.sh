# Read by scripts, also by tests/program.py. `need PATH WHAT` ends, and says what to run first, if a program isn't there.
need() {
    [ -x "$1" ] || { echo "$(basename "$0"): $1 isn't there: first run $2" >&2; exit 1; }
}

# `need_tool TOOL PACKAGE..` installs the packages if the tool is missing, one script at a time, and fails the test if
# they can't be installed: no test passes without what it needs. Where TESTS_INSTALL is `no`, as tests/quick has it, nothing is
# installed: the script says which tool is missing, and ends with status 77, for skipped.
need_tool() {
    local tool=$1
    shift
    if [ "${TESTS_INSTALL-}" = no ] && ! command -v "$tool" > /dev/null; then
        echo "$(basename "$0"): left out: all of it: there is no $tool (packages: $*)"
        exit 77
    fi
    (
        flock 8
        command -v "$tool" > /dev/null && exit
        echo "$(basename "$0"): installs $* for the missing $tool"
        { apt-get update && apt-get install -y "$@"; } > /dev/null < /dev/null 8>&- || true
        command -v "$tool" > /dev/null && exit
        echo "$(basename "$0"): FAILED: there is no $tool, and $* could not be installed" >&2
        exit 1
    ) 8> "${TMPDIR:-/tmp}/hoxburen-packages-$(id -u)" || exit 1
}

need_cc() {
    need_tool cc gcc libc6-dev
}

#!/bin/sh
# Runs a built planner on files as users have them: scripts/dev/odd_files.sh PROGRAM
#
# Names with a blank and names that aren't UTF-8, what can't be read, pipes, and a standard output that takes nothing, each
# with `check`, `plan` and `prepare`. A line for each run says the status, the first line of what was printed, and what stands
# on standard error. The script ends with 1 where a run has another status than it should, or says something on standard
# error. A file without read permission is tried as `nobody` where the script runs as root. It isn't part of the gate.
set -u

if [ $# -ne 1 ]; then
    echo "usage: scripts/dev/odd_files.sh PROGRAM" >&2
    exit 2
fi
program=$(readlink -f "$1")
examples=$(dirname "$(dirname "$(dirname "$(readlink -f "$0")")")")/examples
work=$(mktemp -d)
trap 'rm -rf "$work"' EXIT
chmod 755 "$work"
cd "$work" || exit 2
cp "$program" migrate
wrong=0

# Calls the command with these names before those of the second and the third router.
call() {
    # The first words have no blanks, so they may be split.
    # shellcheck disable=SC2086
    ./migrate $words "$@" r2.cfg r3.cfg
}

# Where root runs the script: as somebody who may not read everything.
call_unprivileged() {
    if [ "$(id -u)" -eq 0 ]; then
        # shellcheck disable=SC2086
        setpriv --reuid=nobody --regid=nogroup --clear-groups ./migrate $words "$@" r2.cfg r3.cfg
    else
        call "$@"
    fi
}

# tell STATUS WANTED TITLE: one line on a run.
tell() {
    mark=
    if [ "$1" -ne "$2" ] || [ -s err ]; then
        mark=" (wrong, $2 was wanted)"
        wrong=1
    fi
    printf '%-40s %s%s  %s%s\n' "$command, $3" "$1" "$mark" "$(head -n 1 out | tr -d '\000' | cut -c 1-60)" "$(cat err)"
}

# try_name WANTED NAME TITLE: a run with this name for the first router's configuration.
try_name() {
    call "$2" >out 2>err </dev/null
    tell $? "$1" "$3"
}

try_names() {
    try_name 0 r1.cfg "as it is"
    try_name 0 "a router.cfg" "a name with a blank"
    try_name 5 "no end.cfg" "a faulty file with a blank"
    try_name 2 "$(printf 'r\377.cfg')" "a name that isn't UTF-8"
    try_name 3 folder.cfg "a directory"
    try_name 3 link.cfg "a link that leads nowhere"
    try_name 3 missing.cfg "no such file"
    try_name 3 "" "an empty name"
    try_name 5 /dev/null "an empty file"
    try_name 6 /dev/zero "a device without an end"
    call_unprivileged secret.cfg >out 2>err </dev/null
    tell $? 3 "no read permission"
}

try_pipes() {
    mkfifo pipe.cfg
    cat r1.cfg >pipe.cfg &
    try_name 0 pipe.cfg "a named pipe"
    wait
    rm pipe.cfg
    # A pipe on purpose, and no file.
    # shellcheck disable=SC2002
    cat r1.cfg | call /dev/stdin >out 2>err
    tell $? 0 "a pipe"
    # shellcheck disable=SC2002
    cat r1.cfg | call /dev/stdin /dev/stdin >out 2>err
    tell $? 5 "a pipe named twice"
    call /dev/stdin >out 2>err <&-
    tell $? 3 "a closed standard input"
}

try_outputs() {
    : >out
    call r1.cfg 2>err >&-
    tell $? 4 "a closed standard output"
    call r1.cfg 2>err >/dev/full
    tell $? 4 "a full standard output"
    # The reader has gone when the program writes.
    { sleep 0.3; call r1.cfg 2>err; echo $? >status; } | true
    tell "$(cat status)" 4 "a reader that has gone"
}

for command in check plan prepare; do
    case $command in
    check) words="check safe.txt" from=triangle ;;
    plan) words="plan" from=triangle ;;
    # It begins with configurations that have no IS-IS yet.
    prepare) words="prepare design.toml" from=design ;;
    esac
    rm -rf ./*.cfg ./*.txt ./*.toml
    cp "$examples/$from"/*.* .
    cp r1.cfg "a router.cfg"
    cp r1.cfg "$(printf 'r\377.cfg')"
    printf 'hostname R1\n' >"no end.cfg"
    cp r1.cfg secret.cfg
    chmod 000 secret.cfg
    ln -s nowhere link.cfg
    mkdir folder.cfg
    try_names
    try_pipes
    try_outputs
done
exit $wrong

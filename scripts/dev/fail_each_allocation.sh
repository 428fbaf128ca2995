#!/bin/sh
# Refuses each growth of memory in turn: scripts/dev/fail_each_allocation.sh PROGRAM [WORD...]
#
# PROGRAM is a built one, as crates/migrate/out/migrate. The call of these words, or without words some calls of
# each command on the examples, is made once with ample memory, where its growths (calls of malloc and realloc) are counted,
# and then once for each of them, which is refused. Each of these runs has to end by itself with status 9 and nothing
# written; or exactly as with ample memory, since a list that is collected asks for the room of its guessed length
# first, and goes on without it. Where a run ends otherwise, it is told, and the script ends with 1. It needs a C
# compiler, `cc`, and isn't part of the gate.
#
# scripts/dev/fail_each_allocation.sh --deepest PROGRAM calls each command on a ring of 200 routers, which asks for so much memory
# that two growths are refused of each call: the one behind which it holds the most, and the last one.
#
# The tests of a crate, which `rt test` leaves as out/NAME_tests, are such a program too, a test's name the word:
# scripts/dev/fail_each_allocation.sh --tests PROGRAM does so for each of them, and counts how they ended.
set -u

seconds=60
work=$(mktemp -d)
trap 'rm -rf "$work"' EXIT
here=$(dirname "$(dirname "$(dirname "$(readlink -f "$0")")")")

# The library that counts growths, and refuses the one of the number REFUSED.
cc -O2 -shared -fPIC -o "$work/refuse.so" -x c - <<'SOURCE' || exit 2
#include <fcntl.h>
#include <malloc.h>
#include <stdio.h>
#include <stdlib.h>
#include <unistd.h>

extern void *__libc_malloc(size_t);
extern void *__libc_realloc(void *, size_t);
extern void __libc_free(void *);

static long growths, refused = -1;

/* The bytes that are held, the most that were, and the growth behind which they were. */
static long held, most, deepest;

static void *grown(void *block, size_t before) {
    held += (long)malloc_usable_size(block) - (long)before;
    if (held > most) {
        most = held;
        deepest = growths;
    }
    return block;
}

static int is_refused(void) {
    if (refused < 0) {
        const char *number = getenv("REFUSED");
        refused = number ? atol(number) : 0;
    }
    return ++growths == refused;
}

void *malloc(size_t size) { return is_refused() ? NULL : grown(__libc_malloc(size), 0); }

void *realloc(void *old, size_t size) {
    size_t before = malloc_usable_size(old);
    return is_refused() ? NULL : grown(__libc_realloc(old, size), before);
}

void free(void *block) {
    held -= (long)malloc_usable_size(block);
    __libc_free(block);
}

__attribute__((destructor)) static void tell(void) {
    const char *name = getenv("GROWTHS");
    char line[64];
    int length = snprintf(line, sizeof line, "%ld %ld\n", growths, deepest);
    int file = name ? open(name, O_WRONLY | O_CREAT | O_TRUNC, 0600) : -1;
    if (file >= 0 && write(file, line, (size_t)length) != length) _exit(70);
}
SOURCE

# Runs words with the growth of this number refused, 0 for none; what they print is in out and err.
run() {
    number=$1
    shift
    timeout "$seconds" env REFUSED="$number" GROWTHS="$work/growths" LD_PRELOAD="$work/refuse.so" "$@" \
        >"$work/out" 2>"$work/err" </dev/null
}

# How a run of the program ends with the growth of this number refused.
end_of_program() {
    run "$@"
    status=$?
    if [ "$status" -eq 9 ] && [ ! -s "$work/out" ] && [ ! -s "$work/err" ]; then
        echo "want of memory"
    elif [ "$status" -eq "$ample_status" ] && cmp -s "$work/out" "$work/ample" && [ ! -s "$work/err" ]; then
        echo "as with ample memory"
    else
        echo "status $status"
    fi
}

# How a run of a test ends.
end_of_test() {
    run "$@"
    status=$?
    if [ "$status" -eq "$ample_status" ]; then
        echo "as with ample memory"
    elif [ "$status" -lt 124 ] && grep -qiE 'out of memory|AllocError|AllocFailed|OutOfMemory' "$work/out" "$work/err"; then
        echo "want of memory"
    else
        echo "status $status"
    fi
}

# Refuses growths of a call in turn, by the name of how its runs end: each of them, or those that `depths` tells.
refuse_each() {
    end_of=$1
    shift
    run 0 "$@"
    ample_status=$?
    cp "$work/out" "$work/ample"
    read -r growths deepest <"$work/growths"
    : >"$work/ends"
    for number in $(numbers_to_refuse); do
        end=$("$end_of" "$number" "$@")
        echo "$end" >>"$work/ends"
        case $end in status*) echo "$*: growth $number of $growths refused: $end" ;; esac
    done
    echo "$2: $growths growths$(sort "$work/ends" | uniq -c | awk '{ count = $1; $1 = ""; printf ";%s: %d", $0, count }')"
    ! grep -q '^status' "$work/ends"
}

# The numbers of the growths that are refused of a call: each one, or the deepest and the last.
numbers_to_refuse() {
    if [ "$depths" = all ]; then
        seq 1 "$growths"
    else
        printf '%s\n' "$deepest" "$growths" | sort -nu
    fi
}

# A ring of so many routers whose last link is dear for OSPF and whose middle one is dear for IS-IS, with IS-IS where `isis` is 1.
# Where it is 2 the metrics are the costs of OSPF process 2, which installs nothing yet.
ring() {
    awk -v n="$1" -v isis="$(($2 % 2))" -v new="$(($2 / 2))" '
        function end_of(number, link, address) {
            printf "interface GigabitEthernet0/%d\n ip address 10.1.%d.%d 255.255.255.252\n", number, link, address
            printf " ip ospf cost %d\n", new ? (link == n / 2 ? 10000 : 10) : (link == n ? 1000 : 1)
            if (isis) printf " ip router isis\n isis metric %d\n", link == n / 2 ? 10000 : 10
        }
        BEGIN {
            for (i = 1; i <= n; i++) {
                printf "hostname S%03d\ninterface Loopback0\n ip address 10.0.0.%d 255.255.255.255\n", i, i
                if (isis) print " ip router isis"
                end_of(0, i, 1)
                end_of(1, i == 1 ? n : i - 1, 2)
                printf "router ospf %d\n network 10.0.0.0 0.255.255.255 area 0\n", new + 1
                if (new) print " distance 255"
                if (isis) printf "router isis\n net 49.0001.0000.0000.%04d.00\n", i
                if (isis) print " is-type level-2-only\n metric-style wide\n distance 255"
                print "end"
            }
        }'
}

# A call of each command on a ring of 200 routers, planned by the program itself.
refuse_deepest() {
    depths=ends
    cd "$work" || exit 2
    ring 200 1 >ring.cfg
    ring 200 0 >without_isis.cfg
    ring 200 2 >new.cfg
    echo 'area = "49.0001"' >design.toml
    "$1" plan ring.cfg >waves.txt
    "$1" plan --budget 100 ring.cfg >tree.txt
    awk '/^wave / { for (i = 2; i <= NF; i++) print $i }' waves.txt >names.txt
    { echo "order 1"; cat names.txt; } >order.txt
    { echo "journal 1"; head -100 names.txt | sed 'p' | awk '{ print $1, 2 - NR % 2 }'; } >journal.txt
    wrong=0
    # shellcheck disable=SC2086
    for call in "check order.txt ring.cfg" "check waves.txt ring.cfg" "plan ring.cfg" "plan --budget 100 ring.cfg" \
        "refute tree.txt ring.cfg" "scripts waves.txt ring.cfg" "replay waves.txt journal.txt ring.cfg" \
        "pair without_isis.cfg new.cfg" "pair --budget 100 without_isis.cfg new.cfg" "paircheck waves.txt without_isis.cfg new.cfg" \
        "pairrefute tree.txt without_isis.cfg new.cfg" "pairscripts waves.txt without_isis.cfg new.cfg" \
        "prepare design.toml without_isis.cfg" "survey ring.cfg" "sample 60"; do
        refuse_each end_of_program "$1" $call || wrong=1
    done
    return $wrong
}

# A call of each command on the examples, as words behind the program.
refuse_each_command() {
    cd "$here/examples" || exit 2
    triangle="triangle/r1.cfg triangle/r2.cfg triangle/r3.cfg"
    square="square/r1.cfg square/r2.cfg square/r3.cfg square/r4.cfg"
    border="border/r1.cfg border/r2.cfg border/r3.cfg border/r4.cfg"
    levels="levels/r1.cfg levels/r2.cfg levels/r3.cfg levels/r4.cfg"
    design=
    [ ! -f design/design.toml ] || design="design/design.toml design/r1.cfg design/r2.cfg design/r3.cfg"
    passes="twopass/r1.cfg twopass/r2.cfg twopass/r3.cfg twopass/r4.cfg twopass/r5.cfg"
    stopped="stopped/waves.txt stopped/journal.txt stopped/before.cfg"
    pair="redesign/old.cfg redesign/new.cfg"
    merged="redesign/two-areas.cfg redesign/one-area.cfg"
    wrong=0
    # The words have no blanks, so they may be split.
    # shellcheck disable=SC2086
    for call in "check triangle/safe.txt $triangle" "check triangle/waves.txt $triangle" "check triangle/unsafe.txt $triangle" \
        "check border/safe.txt $border" "check triangle/safe.txt square/r1.cfg square/r1.cfg" "check missing.txt $triangle" \
        "why triangle/waves.txt $triangle" "why triangle/safe.txt $triangle" "why triangle/unsafe.txt $triangle" "why border/safe.txt $border" \
        "refute square/tree.txt $square" "refute square/order.txt $square" "scripts triangle/waves.txt $triangle" \
        "replay triangle/waves.txt triangle/journal.txt $triangle" "replay triangle/waves.txt triangle/safe.txt $triangle" \
        "replan $stopped" "replan --budget 1 stopped/square-order.txt stopped/square-journal.txt $square" "rollback $stopped" \
        "refute stopped/tree.txt $square" "replan triangle/waves.txt triangle/safe.txt $triangle" \
        "prepare $design" "prepare design/safe.txt design/r1.cfg" "plan $triangle" "plan $levels" "plan $square" \
        "plan --budget 1 $square" "plan triangle/r1.cfg" "twopass $triangle" "twopass --budget 1 $square" \
        "check twopass/passes.txt $passes" "why twopass/passes.txt $passes" "scripts twopass/passes.txt $passes" \
        "survey $border" "survey survey/lost-indentation/r1.cfg survey/pager/r1.cfg" "survey square/tree.txt square/order.txt" \
        "pair $pair" "pair $merged" "pair --budget 1 $merged" "pair redesign/old.cfg redesign/old.cfg" "paircheck redesign/waves.txt $pair" \
        "pairrefute redesign/tree.txt $merged" "pairscripts redesign/waves.txt $pair" "sample 3" "check" "explain a.cfg" "plan --budget 0 a.cfg" "--help"; do
        refuse_each end_of_program "$1" $call || wrong=1
    done
    return $wrong
}

depths=all
case ${1:-} in
'')
    echo "usage: scripts/dev/fail_each_allocation.sh [--tests | --deepest] PROGRAM [WORD...]" >&2
    exit 2
    ;;
--tests)
    wrong=0
    program=$(readlink -f "$2")
    for test in $("$program" --list | sed -n 's/: test$//p'); do
        refuse_each end_of_test "$program" "$test" || wrong=1
    done
    exit $wrong
    ;;
--deepest)
    refuse_deepest "$(readlink -f "$2")"
    ;;
*)
    program=$(readlink -f "$1")
    shift
    if [ $# -eq 0 ]; then
        refuse_each_command "$program"
    else
        refuse_each end_of_program "$program" "$@"
    fi
    ;;
esac

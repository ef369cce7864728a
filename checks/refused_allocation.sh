#!/usr/bin/env bash
# What comes of an allocation that is refused, in two parts: a guest region's, by its tests, and the program's.
#
# Making a guest region takes one allocation. With the first one refused it answers Memory. With the second one
# refused, a test that makes one region passes, and a test that makes two has Memory for the second of them.
#
# The program does each of JOBS with its allocation 1, 2 and so on refused, until a run asks for no more; and once more
# so, with all behind that one refused, too. It ends with status 5 and its line, nothing is put, and OUT isn't there, or
# of `make` is whole (docs/PROGRAM.md). Or the allocation was one that it can do without, and all is as in a run that is
# left alone. A library that is loaded before the C library counts the calls and refuses them.
#
# A part is skipped where it can't run: the command rt isn't there; the program isn't built, or takes no such library,
# or no compiler makes one. Ends with 77 where both are.
set -u

root=$(dirname -- "$(dirname -- "$(readlink -f -- "${BASH_SOURCE[0]}")")")
program=${IGVM:-$root/crates/igvm_tool/out/igvm_tool}
[[ $program == /* ]] || program=$PWD/$program
folder=$(mktemp -d) || exit 1
trap 'rm -rf -- "$folder"' EXIT

skipped() { echo "refused allocation: skipped $1"; return 77; }

# The guest region

refusing() { rt try --test --fail-alloc "$1" 2>&1 </dev/null; }

# ending TEST: how it ended in the output of a try, with its error.
ending() {
    awk -v start="test region::tests::$1 ... " '
        index($0, start) == 1 { inside = 1; text = substr($0, length(start) + 1); next }
        /^[^ ]/ { inside = 0 }
        inside && sub(/^ *error: /, "") { text = text " " $0 }
        END { print text == "" ? "no answer" : text }'
}

try_region() {
    local first second found wanted
    command -v rt >/dev/null 2>&1 || { skipped "for a guest region, the command rt isn't there"; return; }
    cd -- "$root/crates/guest_region" || return 1
    first=$(refusing 1) second=$(refusing 2)
    found=$(
        printf '%s' "one region without its first: $(ending takes_one_block <<<"$first")"
        printf '%s' ", without a second: $(ending takes_one_block <<<"$second")"
        printf '%s' "; two regions without the second: $(ending keeps_pages_apart <<<"$second")"
    )
    echo "refused allocation: $found"
    wanted='one region without its first: FAILED Memory, without a second: ok'
    wanted+='; two regions without the second: FAILED Memory'
    [[ $found != *'no answer'* ]] || printf '%s\n' "$first" "$second" | tail -n 4
    [ "$found" = "$wanted" ]
}

# The program

JOBS=(
    'build examples/boot.json out'
    'load examples/boot.igvm examples/boot_host.json --platform snp --image out'
    'load examples/boot.igvm examples/boot_host.json --platform tdx'
    'measure examples/boot.igvm --platform snp'
    'measure examples/boot.igvm --platform tdx'
    'print examples/boot.igvm'
    'make 4 out'
    'vmsa-build vmsa.json out'
    'vmsa-print examples/boot.vmsa'
    'build-elf examples/boot.json elf 7 out'
    'sev-measure sev.igvm --platform sev_es'
    'sev-load sev.igvm sev_host.json --platform sev_es'
    'strip examples/joined.igvm out --platform 3'
    'join examples/boot.igvm examples/sparse.igvm out'
    'seal examples/unsealed.igvm out --platform snp'
)
SHOWN=10        # faults that are printed
runs=0 faults=0 wanting=0 needless=0

# The library says that it is there by a file `loaded` in the working folder, and that it has refused by one, `refused`.
# What the program asks for before the library has begun isn't counted: that is the system's loader.
library() {
    cat <<'C'
#include <errno.h>
#include <fcntl.h>
#include <stdlib.h>
#include <unistd.h>

extern void *__libc_malloc(size_t), *__libc_calloc(size_t, size_t), *__libc_realloc(void *, size_t);
extern void *__libc_memalign(size_t, size_t);

static long calls, first, last;

static void leave(const char *name) { close(open(name, O_WRONLY | O_CREAT, 0600)); }

__attribute__((constructor)) static void begin(void) {
    leave("loaded");
    last = atol(getenv("REFUSED_LAST"));
    first = atol(getenv("REFUSED_FIRST"));
}

static int is_refused(void) {
    if (first == 0 || ++calls < first || calls > last) return 0;
    leave("refused");
    errno = ENOMEM;
    return 1;
}

void *malloc(size_t size) { return is_refused() ? NULL : __libc_malloc(size); }
void *calloc(size_t count, size_t size) { return is_refused() ? NULL : __libc_calloc(count, size); }
void *realloc(void *old, size_t size) { return is_refused() ? NULL : __libc_realloc(old, size); }
void *memalign(size_t unit, size_t size) { return is_refused() ? NULL : __libc_memalign(unit, size); }
void *aligned_alloc(size_t unit, size_t size) { return memalign(unit, size); }
int posix_memalign(void **place, size_t unit, size_t size) {
    void *found = memalign(unit, size);
    if (found != NULL) *place = found;
    return found == NULL ? ENOMEM : 0;
}
C
}

zeros() { head -c "$1" /dev/zero; }

# The text of a VMSA page with each form of a key.
vmsa_text() {
    printf '%s' '{"rip":"0xfff0","cs":{"selector":61440,"attributes":155,"limit":65535,"base":"0xffff0000"},'
    printf '%s' '"other":[{"at":784,"byte":18},{"at":785,"byte":15},{"at":4095,"byte":1}]}'
}

# The ELF file of docs/ELF.md, section 4: the file header, the program header and four bytes.
elf_file() {
    printf '\177ELF\2\1\1'; zeros 9; printf '\2\0\76\0\1'; zeros 11; printf '\100'; zeros 19
    printf '\100\0\70\0\1'; zeros 7
    printf '\1'; zeros 7; printf '\170'; zeros 15; printf '\376\17\20'; zeros 5; printf '\4'; zeros 7; printf '\4\20'
    zeros 7; printf '\20'; zeros 6
    printf '\336\255\276\357'
}

# The list of a guest for SEV-ES with an area, a large page and a context, and a host for it.
sev_list() {
    printf '%s' '{"platforms":[{"kind":"sev_es","mask":1}],"directives":[{"do":"area","index":0,"bytes":8192},'
    printf '%s' '{"do":"param","kind":"command_line","area":0,"offset":0},'
    printf '%s' '{"do":"insert","mask":1,"gpa":"0x1000","area":0},'
    printf '%s' '{"do":"zero","mask":1,"gpa":"0x200000","count":1,"large":true},'
    printf '%s' '{"do":"context","mask":1,"gpa":"0xfffffffff000","vp":0}]}'
}
sev_host() {
    printf '%s' '{"memory":[{"start":"0x0","bytes":"0x100000"},{"start":"0x200000","bytes":"0x200000"}],'
    printf '%s' '"values":{"command_line":"636f6e736f6c65"}}'
}

fault() {
    faults=$((faults + 1))
    [ "$faults" -gt "$SHOWN" ] || echo "refused allocation: $1"
}

# run FIRST LAST WORD..: a run with these allocations refused, none where FIRST is 0, and OUT not there before.
run() {
    runs=$((runs + 1))
    rm -f refused out
    timeout 60 env LD_PRELOAD="$folder/refusing.so" REFUSED_FIRST="$1" REFUSED_LAST="$2" "$program" "${@:3}" \
        >text 2>error </dev/null
    status=$?
}

same() { [ ! -e "$1" ] && [ ! -e "$2" ] || cmp -s "$1" "$2"; }
is_as_alone() { [ "$status" -eq 0 ] && [ ! -s error ] && same text text.alone && same out out.alone; }

# is_wanting COMMAND: the run ended with want of memory.
is_wanting() {
    [ "$status" -eq 5 ] && [ ! -s text ] && [ "$(cat error)" = 'igvm: want of memory' ] || return 1
    [ ! -e out ] || { [ "$1" = make ] && same out out.alone; }
}

# refuse_each SPAN WORD..: SPAN is how many allocations behind the first are refused with it.
refuse_each() {
    local span=$1 first=0 found=0
    shift
    while first=$((first + 1)); run "$first" "$((first + span))" "$@"; [ -e refused ]; do
        if is_wanting "$1"; then
            found=$((found + 1))
        elif is_as_alone; then
            needless=$((needless + 1))
        else
            fault "$*: allocation $first of $((first + span)) refused: status $status, $(head -n 1 error)"
        fi
    done
    is_as_alone || fault "$*: nothing refused: status $status, $(head -n 1 error)"
    [ "$found" -gt 0 ] || fault "$*: no refused allocation is answered by 5"
    wanting=$((wanting + found))
}

try_program() {
    local job
    [ -x "$program" ] || { skipped "for the program, it isn't built"; return; }
    cd -- "$folder" && ln -s -- "$root/examples" examples && vmsa_text >vmsa.json && elf_file >elf &&
        sev_list >list && sev_host >sev_host.json && "$program" build list sev.igvm >/dev/null || return 1
    if ! library | "${CC:-cc}" -shared -fPIC -O1 -o refusing.so -x c - 2>compiling; then
        skipped "for the program, no compiler makes the library"
        return
    fi
    run 0 0
    [ -e loaded ] || { skipped "for the program, it takes no library"; return; }
    for job in "${JOBS[@]}"; do
        # The words of a job have no spaces.
        rm -f out.alone
        (rm -f out && "$program" $job >text.alone) || fault "$job: status $?"
        [ ! -e out ] || mv out out.alone
        refuse_each 0 $job
        refuse_each 1000000 $job
    done
    echo "refused allocation: $runs runs, $wanting without memory, $needless that did without, $faults faults"
    [ "$faults" -eq 0 ]
}

(try_region)
region=$?
(try_program)
case "$region $?" in
    '0 0' | '0 77' | '77 0') exit 0 ;;
    '77 77') exit 77 ;;
    *) exit 1 ;;
esac

#!/usr/bin/env bash
# How the program ends where an output fails or a file is no plain one, by docs/PROGRAM.md, and what OUT then holds.
# Ends with 77 where it isn't built.
set -u

root=$(dirname -- "$(dirname -- "$(readlink -f -- "${BASH_SOURCE[0]}")")")
program=${IGVM:-$root/crates/igvm_tool/out/igvm_tool}
[[ $program == /* ]] || program=$PWD/$program
if [ ! -x "$program" ]; then
    echo "streams: skipped, the program isn't built"
    exit 77
fi

folder=$(mktemp -d) || exit 1
trap 'rm -rf -- "$folder"' EXIT
cp -- "$root"/examples/{guest.*,{boot,sparse,joined,stripped,unsealed,sealed}.igvm} "$folder" &&
    mkdir "$folder/examples" &&
    cp -- "$root"/examples/boot.* "$folder/examples" && ln -s -- "$program" "$folder/igvm" && cd -- "$folder" || exit 1
head -c 23 guest.igvm >short
mkfifo pipe
row() { grep -F "| \`guest.igvm\` | $1 |" "$root/examples/README.md" | grep -Eo '[0-9a-f]{96}'; }
row snp >digest
row 'snp --native-zero' >zero_digest
runs=0 faults=0

fault() { echo "streams: $1"; faults=$((faults + 1)); }

# ends STATUS ERROR COMMAND: the command ends so and puts this line on the error output, or nothing.
ends() {
    runs=$((runs + 1))
    timeout 60 bash -c "$3" 2>error
    local status=$? line
    line=$(cat error)
    [ "$status" -eq "$1" ] || fault "$3: status $status, expected $1"
    [ "$line" = "$2" ] || fault "$3: error '$line', expected '$2'"
}

output='igvm: outside fault: output'
for job in 'print guest.igvm' 'measure guest.igvm --platform tdx' 'measure guest.igvm --platform 0 --native-zero'; do
    ends 4 "$output" "./igvm $job >&-"
    ends 4 "$output" "./igvm $job >/dev/full"
    # A pipe whose reader has gone: the writer waits for that.
    ends 4 "$output" "set -o pipefail; { sleep 0.2; ./igvm $job; } | true"
    ends 4 "$output" "trap '' PIPE; set -o pipefail; { sleep 0.2; ./igvm $job; } | true"
    ends 4 '' "./igvm $job >/dev/full 2>&-"
    ends 4 '' "./igvm $job >/dev/full 2>/dev/full"
    ends 0 '' "./igvm $job >/dev/null 2>&-"
    ends 0 '' "./igvm $job >/dev/null 2>&- <&-"
    ends 1 'igvm: file refused at 23: too short' "./igvm ${job/guest.igvm/short} >&-"
    ends 1 '' "./igvm ${job/guest.igvm/short} 2>/dev/full"
    ends 4 'igvm: outside fault: shelf' "./igvm ${job/guest.igvm/missing} >/dev/full"
done
ends 2 '' './igvm print 2>/dev/full'
ends 6 '' './igvm measure guest.igvm --platform 3 2>&-'
ends 0 '' './igvm print guest.igvm | cmp - guest.txt >&2'
ends 0 '' 'timeout 10 bash -c "cat guest.igvm >pipe" & ./igvm print pipe | cmp - guest.txt >&2'
ends 0 '' 'cat guest.igvm | ./igvm print /dev/stdin | cmp - guest.txt >&2'
ends 0 '' 'cat guest.igvm | ./igvm measure /dev/stdin --platform snp | cmp - digest >&2'
ends 0 '' 'cat guest.igvm | ./igvm measure /dev/stdin --platform snp --native-zero | cmp - zero_digest >&2'
ends 1 'igvm: file refused at 0: too short' './igvm print /dev/null'

build='./igvm build examples/boot.json'
shelf='igvm: outside fault: shelf'
echo '[' >broken
ends 0 '' "$build out >/dev/null && cmp out boot.igvm >&2"
for closed in '>&-' '>/dev/full'; do
    # The image stands whole where only the line fails.
    ends 4 "$output" "rm -f out; $build out $closed"
    ends 0 '' 'cmp out boot.igvm >&2'
    ends 7 'igvm: json refused' "./igvm build broken out $closed"
    ends 0 '' 'cmp out boot.igvm >&2'
done
ends 4 "$output" "set -o pipefail; { sleep 0.2; $build out; } | true"
ends 0 '' "$build out >/dev/null 2>&-"
ends 4 "$shelf" "$build /dev/full"
ends 4 "$shelf" "$build examples"
ends 4 '' "$build /dev/full 2>/dev/full"
ends 4 "$shelf" 'cd examples && ../igvm build boot.json out'
ends 2 '' '[ ! -e examples/out ] || exit 1; ./igvm build 2>/dev/full'
# A file that the system cuts at 16 blocks of 1,024 bytes: a front of the image stands there.
ends 4 "$shelf" "trap '' XFSZ; ulimit -f 16; $build out"
ends 0 '' 'head -c 16384 boot.igvm | cmp - out >&2'
# Written in its place: a link stays one, and what was longer is cut.
head -c 100000 /dev/zero >long
ln -s long link
ends 0 '' "$build link >/dev/null && [ -L link ] && cmp long boot.igvm >&2"
ends 0 '' "cp boot.igvm both; echo 'built 41640 bytes' >>both; $build /dev/stdout | cmp - both >&2"
ends 0 '' "$build pipe >/dev/null & cat pipe | cmp - boot.igvm >&2"
ends 0 '' "cat examples/boot.json | ./igvm build /dev/stdin out >/dev/null && cmp out boot.igvm >&2"
# `make` writes its image first, so it stands whole where only the text fails.
make='./igvm make 4'
ends 0 '' "$make made >/dev/null && ./igvm print made | head -n 1 | grep -q ' total 20920 ' >&2"
for closed in '>&-' '>/dev/full'; do
    ends 4 "$output" "rm -f out; $make out $closed"
    ends 0 '' 'cmp out made >&2'
done
ends 4 "$output" "rm -f out; set -o pipefail; { sleep 0.2; $make out; } | true"
ends 0 '' "cmp out made >&2 && $make out >/dev/null 2>&-"
ends 4 "$shelf" "$make /dev/full"
ends 4 "$shelf" "$make examples >/dev/full"
ends 4 '' "$make /dev/full 2>/dev/full"
ends 4 "$shelf" "trap '' XFSZ; ulimit -f 16; $make out"
ends 0 '' 'head -c 16384 made | cmp - out >&2'
ends 0 '' "$make link >/dev/null && [ -L link ] && cmp long made >&2"
ends 0 '' "$make pipe >/dev/null & cat pipe | cmp - made >&2"
ends 2 '' './igvm make 2>/dev/full'

# VMSA pages: a front of one, whose zeros behind it are told by none, and its text.
zeros() { head -c "$1" /dev/zero; }
{ zeros 376; printf '\360\377'; } >page
printf '{"rip":"0xfff0"}' >vmsa.json
{ cat page; zeros 3718; } >whole
print='./igvm vmsa-print page'
ends 0 '' "$print | cmp - vmsa.json >&2"
ends 0 '' './igvm vmsa-print whole | cmp - vmsa.json >&2'
for closed in '>&-' '>/dev/full'; do
    ends 4 "$output" "$print $closed"
    ends 4 '' "$print $closed 2>&-"
    ends 4 "$shelf" "./igvm vmsa-print missing $closed"
    ends 8 'igvm: limit: vmsa' "./igvm vmsa-print boot.igvm $closed"
done
ends 4 "$output" "set -o pipefail; { sleep 0.2; $print; } | true"
ends 4 "$output" "trap '' PIPE; set -o pipefail; { sleep 0.2; $print; } | true"
ends 0 '' "$print >/dev/null 2>&- <&-"
ends 0 '' 'cat page | ./igvm vmsa-print /dev/stdin | cmp - vmsa.json >&2'
ends 0 '' 'timeout 10 bash -c "cat whole >pipe" & ./igvm vmsa-print pipe | cmp - vmsa.json >&2'
ends 0 '' "[ \"\$(./igvm vmsa-print /dev/null)\" = '{}' ]"
ends 8 'igvm: limit: vmsa' './igvm vmsa-print /dev/zero'
ends 2 '' './igvm vmsa-print 2>/dev/full'
vmsa='./igvm vmsa-build vmsa.json'
ends 0 '' "$vmsa out >/dev/null && cmp out whole >&2"
for closed in '>&-' '>/dev/full'; do
    ends 4 "$output" "rm -f out; $vmsa out $closed"
    ends 0 '' 'cmp out whole >&2'
    ends 7 'igvm: json refused' "./igvm vmsa-build broken out $closed"
    ends 7 'igvm: json refused: vmsa 0' "./igvm vmsa-build examples/boot.json out $closed"
    ends 0 '' 'cmp out whole >&2'
done
ends 4 "$output" "rm -f out; set -o pipefail; { sleep 0.2; $vmsa out; } | true"
ends 0 '' "cmp out whole >&2 && $vmsa out >/dev/null 2>&-"
ends 4 "$shelf" "$vmsa /dev/full"
ends 4 "$shelf" "$vmsa examples >/dev/full"
ends 4 '' "$vmsa /dev/full 2>/dev/full"
ends 4 "$shelf" "trap '' XFSZ; ulimit -f 2; $vmsa out"
ends 0 '' 'head -c 2048 whole | cmp - out >&2'
ends 0 '' "$vmsa link >/dev/null && [ -L link ] && cmp long whole >&2"
ends 0 '' "cp whole both; echo 'built 4096 bytes' >>both; $vmsa /dev/stdout | cmp - both >&2"
ends 0 '' "$vmsa pipe >/dev/null & cat pipe | cmp - whole >&2"
ends 0 '' 'cat vmsa.json | ./igvm vmsa-build /dev/stdin out >/dev/null && cmp out whole >&2'
ends 0 '' 'cp vmsa.json self; ./igvm vmsa-build self self >/dev/null && cmp self whole >&2'
ends 2 '' './igvm vmsa-build 2>/dev/full'

# The ELF file of docs/ELF.md, section 4, behind a list: the file header, the program header and four bytes.
{
    printf '\177ELF\2\1\1'; zeros 9; printf '\2\0\76\0\1'; zeros 11; printf '\100'; zeros 19
    printf '\100\0\70\0\1'; zeros 7
    printf '\1'; zeros 7; printf '\170'; zeros 15; printf '\376\17\20'; zeros 5; printf '\4'; zeros 7; printf '\4\20'
    zeros 7; printf '\20'; zeros 6
    printf '\336\255\276\357'
} >elf
echo '{"platforms":[{"kind":"snp","mask":1}],"directives":[]}' >list
both='./igvm build-elf list elf 1'
ends 0 '' "$both made >/dev/null && ./igvm print made | head -n 1 | grep -q ' total 8336 headers 4' >&2"
for closed in '>&-' '>/dev/full'; do
    ends 4 "$output" "rm -f out; $both out $closed"
    ends 0 '' 'cmp out made >&2'
    ends 7 'igvm: json refused' "./igvm build-elf broken elf 1 out $closed"
    ends 1 'igvm: elf refused at 0: magic' "./igvm build-elf list boot.igvm 1 out $closed"
    ends 4 "$shelf" "./igvm build-elf list missing 1 out $closed"
    ends 0 '' 'cmp out made >&2'
done
ends 4 "$output" "rm -f out; set -o pipefail; { sleep 0.2; $both out; } | true"
ends 0 '' "cmp out made >&2 && $both out >/dev/null 2>&-"
ends 4 "$shelf" "$both /dev/full"
ends 4 "$shelf" "$both examples >/dev/full"
ends 4 '' "$both /dev/full 2>/dev/full"
ends 4 "$shelf" "trap '' XFSZ; ulimit -f 4; $both out"
ends 0 '' 'head -c 4096 made | cmp - out >&2'
ends 0 '' "$both link >/dev/null && [ -L link ] && cmp long made >&2"
ends 0 '' "cp made whole; echo 'built 8336 bytes' >>whole; $both /dev/stdout | cmp - whole >&2"
ends 0 '' "$both pipe >/dev/null & cat pipe | cmp - made >&2"
ends 0 '' 'cat list | ./igvm build-elf /dev/stdin elf 1 out >/dev/null && cmp out made >&2'
ends 0 '' 'cat elf | ./igvm build-elf list /dev/stdin 1 out >/dev/null && cmp out made >&2'
ends 0 '' 'timeout 10 bash -c "cat elf >pipe" & ./igvm build-elf list pipe 1 out >/dev/null && cmp out made >&2'
# ELF is opened only where LIST is right: else the program would wait for a writer.
ends 7 'igvm: json refused' './igvm build-elf broken pipe 1 out'
ends 7 'igvm: json refused: top 0' './igvm build-elf vmsa.json pipe 1 out'
ends 4 "$shelf" './igvm build-elf missing pipe 1 out'
ends 8 'igvm: limit: elf' './igvm build-elf list /dev/zero 1 out'
ends 0 '' 'cmp out made >&2'
ends 0 '' 'cp list self; ./igvm build-elf self elf 1 self >/dev/null && cmp self made >&2'
ends 0 '' 'cp elf self; ./igvm build-elf list self 1 self >/dev/null && cmp self made >&2'
ends 2 '' './igvm build-elf 2>/dev/full'
# A launch for SEV of one page of zeros: its digest is the page's.
echo '{"platforms":[{"kind":"sev","mask":1}],"directives":[{"do":"zero","mask":1,"gpa":"0x1000","count":1}]}' >list
echo '{"memory":[{"start":"0x0","bytes":"0x10000"}]}' >host
echo '{"memory":[{"start":"0x0","bytes":"0x1000"}]}' >small_host
./igvm build list sev.igvm >/dev/null
truncate -s 536870913 too_long
{ echo 'loaded 1 pages, 0 contexts'; echo "digest $(zeros 4096 | sha256sum | head -c 64)"; } >loaded
load='./igvm sev-load sev.igvm host --platform sev'
ends 0 '' "$load | cmp - loaded >&2"
for closed in '>&-' '>/dev/full'; do
    ends 4 "$output" "$load $closed"
    ends 4 '' "$load $closed 2>&-"
    # What doesn't fit is put on standard output, too.
    ends 4 "$output" "./igvm sev-load sev.igvm small_host --platform sev $closed"
    ends 1 'igvm: file refused at 23: too short' "./igvm sev-load short host --platform sev $closed"
    ends 4 "$shelf" "./igvm sev-load missing host --platform sev $closed"
    ends 4 "$shelf" "./igvm sev-load sev.igvm missing --platform sev $closed"
    ends 6 'igvm: no platform sev_es' "./igvm sev-load sev.igvm host --platform sev_es $closed"
    ends 7 'igvm: json refused' "./igvm sev-load sev.igvm broken --platform sev $closed"
done
ends 4 "$output" "set -o pipefail; { sleep 0.2; $load; } | true"
ends 4 "$output" "trap '' PIPE; set -o pipefail; { sleep 0.2; $load; } | true"
ends 0 '' "$load >/dev/null 2>&- <&-"
ends 3 '' './igvm sev-load sev.igvm small_host --platform sev >/dev/null 2>&-'
ends 0 '' 'cat sev.igvm | ./igvm sev-load /dev/stdin host --platform sev | cmp - loaded >&2'
ends 0 '' 'cat host | ./igvm sev-load sev.igvm /dev/stdin --platform 0 | cmp - loaded >&2'
ends 0 '' 'timeout 10 bash -c "cat host >pipe" & ./igvm sev-load sev.igvm pipe --platform sev | cmp - loaded >&2'
# HOST is opened only where FILE is right and has the platform: else the program would wait for a writer.
ends 1 'igvm: file refused at 23: too short' './igvm sev-load short pipe --platform sev'
ends 4 "$shelf" './igvm sev-load missing pipe --platform sev'
ends 6 'igvm: no platform 1' './igvm sev-load sev.igvm pipe --platform 1'
ends 6 'igvm: no digest for snp' './igvm sev-load boot.igvm pipe --platform 0'
ends 8 'igvm: limit: host' './igvm sev-load sev.igvm /dev/zero --platform sev'
ends 2 '' './igvm sev-load 2>/dev/full'

# changes JOB IMAGE: the job, in which OUT stands in its place, writes this image and puts its size.
changes() {
    local job=$1 image=$2 size closed
    size=$(stat -c %s -- "$image")
    to() { echo "./igvm ${job/OUT/$1}"; }
    ends 0 '' "$(to out) | grep -Fxq 'built $size bytes' && cmp out $image >&2"
    for closed in '>&-' '>/dev/full'; do
        ends 4 "$output" "rm -f out; $(to out) $closed"
        ends 0 '' "cmp out $image >&2"
        ends 4 "$shelf" "$(to /dev/full) $closed"
    done
    ends 4 "$output" "rm -f out; set -o pipefail; { sleep 0.2; $(to out); } | true"
    ends 0 '' "cmp out $image >&2 && $(to out) >/dev/null 2>&-"
    ends 4 "$shelf" "$(to /dev/full)"
    ends 4 "$shelf" "$(to examples) >/dev/full"
    ends 4 '' "$(to /dev/full) 2>/dev/full"
    ends 4 "$shelf" "trap '' XFSZ; ulimit -f 4; $(to out)"
    ends 0 '' "head -c 4096 $image | cmp - out >&2"
    ends 0 '' "$(to link) >/dev/null && [ -L link ] && cmp long $image >&2"
    ends 0 '' "{ cat $image; echo 'built $size bytes'; } >both; $(to /dev/stdout) | cmp - both >&2"
    ends 0 '' "$(to pipe) >/dev/null & cat pipe | cmp - $image >&2"
    ends 2 '' "./igvm ${job%% *} 2>/dev/full"
}

# reads JOB IMAGE FILE: the same where the file that stands as FILE in the job comes by a pipe, or is OUT.
reads() {
    local job=$1 image=$2 file=$3
    ends 0 '' "cat $file | ./igvm ${job/FILE//dev/stdin} >/dev/null && cmp out $image >&2"
    ends 0 '' "timeout 10 bash -c 'cat $file >pipe' & ./igvm ${job/FILE/pipe} >/dev/null && cmp out $image >&2"
    job=${job/FILE/self}
    ends 0 '' "cp $file self; ./igvm ${job/out/self} >/dev/null && cmp self $image >&2"
}

changes 'strip joined.igvm OUT --platform 3' stripped.igvm
reads 'strip FILE out --platform 3' stripped.igvm joined.igvm
changes 'join boot.igvm sparse.igvm OUT' joined.igvm
reads 'join FILE sparse.igvm out' joined.igvm boot.igvm
reads 'join boot.igvm FILE out' joined.igvm sparse.igvm
changes 'seal unsealed.igvm OUT --platform snp' sealed.igvm
reads 'seal FILE out --platform snp' sealed.igvm unsealed.igvm
# What is refused leaves OUT as it was, whether its line can be put or not.
cp long out
for closed in '>&-' '>/dev/full'; do
    for job in {strip,seal}' FILE out --platform 9' 'join '{'FILE boot.igvm','boot.igvm FILE'}' out'; do
        ends 1 'igvm: file refused at 23: too short' "./igvm ${job/FILE/short} $closed"
        ends 1 '' "./igvm ${job/FILE/short} 2>/dev/full"
        ends 4 "$shelf" "./igvm ${job/FILE/missing} $closed"
        ends 8 'igvm: limit: file' "./igvm ${job/FILE/too_long} $closed"
    done
    ends 6 'igvm: no platform 9' "./igvm strip joined.igvm out --platform 9 $closed"
    ends 6 'igvm: no platform 9' "./igvm seal joined.igvm out --platform 9 $closed"
    ends 6 'igvm: no seal for tdx' "./igvm seal joined.igvm out --platform tdx $closed"
    ends 6 'igvm: no id block' "./igvm seal joined.igvm out --platform snp $closed"
done
ends 6 '' './igvm seal joined.igvm out --platform 9 2>&-'
# SECOND is opened only where FIRST is right: else the program would wait for a writer.
ends 1 'igvm: file refused at 23: too short' './igvm join short pipe out'
ends 4 "$shelf" './igvm join missing pipe out'
ends 0 '' 'cmp out long >&2'
# LIST itself, and a file that it names, may be written.
ends 0 '' "cp examples/boot.json self; ./igvm build self self >/dev/null && cmp self boot.igvm >&2"
ends 0 '' "$build examples/boot.pages >/dev/null && cmp examples/boot.pages boot.igvm >&2"

echo "streams: $runs runs, $faults faults"
[ "$faults" -eq 0 ]

#!/bin/bash
# The program among strangers: files that are endless, large, folders, forbidden or not there; names and words that are odd; output
# that is full, closed or shared; records that must not be lost. It says what each should, with its status, and leaves what it
# should. Wants root, for another user's view of a folder: `setpriv` of util-linux; `strace` counts writes where it is there.
set -u
. "$(dirname "$0")/common.sh"
cp "$program" "$work/wathread"
cp "$top"/examples/{atomic_add,broken_lock,fac,counting}.wasm "$work"
cd "$work" || exit 1
# (module (memory 1 1 shared) (func (export "f") ..))
printf '%b' '\x00\x61\x73\x6d\x01\x00\x00\x00' '\x01\x04\x01\x60\x00\x00' '\x03\x02\x01\x00' '\x05\x04\x01\x03\x01\x01' \
    '\x07\x05\x01\x01\x66\x00\x00' >front
# .. (loop $round br $round), and .. (loop $round (drop (i32.atomic.rmw.add (i32.const 0) (i32.const 1))) br $round)
{ cat front; printf '%b' '\x0a\x09\x01\x07\x00\x03\x40\x0c\x00\x0b\x0b'; } >endless.wasm
{ cat front; printf '%b' '\x0a\x12\x01\x10\x00\x03\x40\x41\x00\x41\x01\xfe\x1e\x02\x00\x1a\x0c\x00\x0b\x0b'; } >filling.wasm
wrong=0 tried=0
ADDED=$'thread 0: ok i32:0\npages 1'
add=(./wathread run atomic_add.wasm --invoke f)

say() {
    echo "wrong: $*"
    wrong=$((wrong + 1))
}

# Whether a command ends with a status, and says this on standard output and standard error, patterns: ends STATUS OUT ERR COMMAND..
ends() {
    local status=$1 out=$2 err=$3 got
    shift 3
    timeout 20 "$@" >"$work/.out" 2>"$work/.err" </dev/null
    got=$?
    tried=$((tried + 1))
    [ "$got" -eq "$status" ] || say "status $got: $*"
    [[ $(<"$work/.out") =~ ^($out)$ ]] || say "output of $*: $(<"$work/.out")"
    [[ $(<"$work/.err") =~ ^($err)$ ]] || say "standard error of $*: $(<"$work/.err")"
}

# Whether a folder has these names and no others: has FOLDER NAME..
has() {
    local folder=$1 names
    shift
    names=$(ls -A "$folder" | tr '\n' ' ')
    [ "$names" = "$*${*:+ }" ] || say "$folder has $names, not $*"
}

# Whether a command takes at most so many MB: small MB COMMAND..
small() {
    local most=$1 kb
    shift
    kb=$(/usr/bin/time -f %M "$@" 2>&1 >"$work/.out" | tail -n 1)
    tried=$((tried + 1))
    [ "$kb" -lt $((most * 1000)) ] || say "$kb KB: $*"
}

# Files that end late or never.
truncate -s 300M large
ends 2 '' 'module refused: read 11 at 1048576' ./wathread check /dev/zero
ends 2 '' 'module refused: read 11 at 1048576' ./wathread check large
ends 2 '' 'module refused: read 1 at 0' ./wathread check /dev/null
ends 4 '' 'record refused: header line 1' ./wathread replay atomic_add.wasm /dev/zero
ends 4 '' 'record refused: header line 1' ./wathread replay atomic_add.wasm large
{ echo 'wathread-record 1'; cat large; } >line
ends 4 '' 'record refused: header line 2' ./wathread replay atomic_add.wasm line
ends 4 '' 'record refused: header line 2' sh -c '{ echo wathread-record 1; cat /dev/zero; } | ./wathread replay atomic_add.wasm /dev/stdin'
small 16 ./wathread check /dev/zero
small 16 ./wathread check large
small 16 ./wathread replay atomic_add.wasm /dev/zero
small 300 ./wathread replay atomic_add.wasm line
for thousands in 700 1000 2000; do
    ends 5 '' 'no memory' prlimit --as=$((thousands * 1000 + 6300000)) ./wathread check large
done
ends 5 '' 'no memory' prlimit --as=40000000 ./wathread replay atomic_add.wasm line
rm large line

# Counts of 4294967295, where the system has 30 MB of addresses: nothing of that size is reserved.
greatest='\xff\xff\xff\xff\x0f' opening='\x00\x61\x73\x6d\x01\x00\x00\x00'
function='\x01\x04\x01\x60\x00\x00\x03\x02\x01\x00'
while read -r fault before; do
    printf '%b' "$opening" "$before" "$greatest" >swollen.wasm
    ends 2 '' "module refused: read $fault at $(($(stat -c %s swollen.wasm) - (fault == 11 ? 5 : 0)))" \
        prlimit --as=30000000 ./wathread check swollen.wasm
done <<END
11 \x01\x05
11 \x01\x07\x01\x60
5 \x02\x06\x01
11 \x09\x0a\x01\x00\x41\x00\x0b
5 \x0b\x0a\x01\x00\x41\x00\x0b
5 \x00\x05
1 \x01
5 $function\x0a\x07\x01\x05
5 $function\x0a\x09\x01\x07\x00\x0e
END

# Paths of files that are no files, or not there.
mkdir folder closed
head -c 20 atomic_add.wasm >cut.wasm
cp atomic_add.wasm forbidden.wasm
chmod 0 forbidden.wasm
chmod 755 "$work"
other=(setpriv --reuid 54321 --clear-groups)
missing=$'\nthere is nothing with this path' denied=$'\nthe system doesn\'t allow it' no_file=$'\nit is a folder'
lengthy=$'\nthe path, or a part of it, is too long' full=$'\nthere is no room left for it'
ends 5 '' "file fault: folder$no_file" ./wathread check folder
ends 5 '' "file fault: folder/$no_file" ./wathread check folder/
ends 5 '' "file fault: nothing.wasm$missing" ./wathread check nothing.wasm
ends 5 '' 'file fault: nothing.wasm' ./wathread check nothing.wasm --no-explain
ends 5 '' "file fault: $missing" ./wathread check ''
ends 5 '' "file fault: forbidden.wasm$denied" "${other[@]}" ./wathread check forbidden.wasm
ends 5 '' "file fault: folder$no_file" ./wathread replay atomic_add.wasm folder
ends 5 '' "file fault: $missing" ./wathread replay atomic_add.wasm ''
ends 5 '' "file fault: a{5000}$lengthy" ./wathread check "$(printf 'a%.0s' {1..5000})"
ends 2 '' 'module refused: read 1 at 20' ./wathread check cut.wasm
cp atomic_add.wasm 'späße 図.wasm'
ends 0 'ok functions 1' '' ./wathread check 'späße 図.wasm'

# Words that are wrong: the status is 3, with a text.
usage=$'error: .*\n.*For more information, try \'--help\'.'
ends 3 '' "error: invalid UTF-8 was detected in one or more arguments.*" ./wathread check $'\xff.wasm'
ends 3 '' "error: invalid UTF-8 was detected in one or more arguments.*" ./wathread run atomic_add.wasm --invoke $'f\xc3'
ends 3 '' "$usage" ./wathread
ends 3 '' "$usage" ./wathread ''
ends 3 '' "$usage" ./wathread check
ends 3 '' "$usage" ./wathread check atomic_add.wasm atomic_add.wasm
ends 3 '' "$usage" ./wathread replay atomic_add.wasm a.record b.record
for words in '--dump 5000' '--limit 0' '--limit 1000001' '--fuel 1000000000001' '--fuel -1' '--memory paper' \
    '--memory words --record a.record' '--record atomic_add.wasm'; do
    # shellcheck disable=SC2086
    ends 3 '' "$usage" "${add[@]}" $words
done
ends 3 '' "run refused: wrong arguments" "${add[@]}" 1
ends 3 '' "run refused: unknown export" ./wathread run atomic_add.wasm --invoke ''
ends 3 '' "run refused: unknown export" ./wathread run atomic_add.wasm --invoke "$(printf 'g%.0s' {1..100000})"
has folder

# A record that would take the module's place, by any name of it.
cp atomic_add.wasm kept.wasm
ln -s kept.wasm link.wasm
ln kept.wasm twin.wasm
for path in kept.wasm ./kept.wasm "$work/kept.wasm" folder/../kept.wasm link.wasm twin.wasm; do
    ends 3 '' "error: the argument '--record <OUT>' cannot be used with the path of <FILE>.*" \
        ./wathread run kept.wasm --invoke f --record "$path"
    cmp -s kept.wasm atomic_add.wasm || say "$path: the module is another"
done
rm kept.wasm link.wasm twin.wasm

# A record that can't be written is told before the run, which would not end.
forever=(./wathread run endless.wasm --invoke f --fuel 1000000000000 --record)
for path in folder folder/ nowhere/a.record nothing/ '' /proc/a.record "$(printf 'a%.0s' {1..300})"; do
    ends 5 '' "file fault: $path($missing|$no_file|$lengthy)" "${forever[@]}" "$path"
done
chmod 555 closed
echo old >closed/a.record
ends 5 '' "file fault: closed/a.record$denied" "${other[@]}" "${forever[@]}" closed/a.record
ends 5 '' "file fault: closed/b.record$denied" "${other[@]}" "${forever[@]}" closed/b.record
has closed a.record
chmod 777 closed
ends 5 '' "file fault: closed/a.record$denied" "${other[@]}" "${forever[@]}" closed/a.record
ln -s nowhere/there broken
ends 5 '' "file fault: broken$missing" "${forever[@]}" broken
has closed a.record
rm -r closed broken

# What is there stays until the whole record is written, with its permissions; links stay links.
cp "$top/examples/atomic_add.wasm" same.wasm
"${add[@]}" --record whole >/dev/null
[ "$(head -n 1 whole)" = 'wathread-record 2' ] || say 'the record has another first line'
echo old >folder/a.record
chmod 600 folder/a.record
ln -s folder/a.record to.record
ends 0 "$ADDED" '' "${add[@]}" --record to.record
cmp -s whole folder/a.record || say 'the record is another'
[ "$(stat -c %a folder/a.record)" = 600 ] || say 'the permissions are others'
[ -L to.record ] || say 'the link was replaced'
has folder a.record
touch folder/.wathread-0 folder/.wathread-1
ends 0 "$ADDED" '' "${add[@]}" --record folder/b.record
cmp -s whole folder/b.record || say 'the record beside another file is another'
has folder .wathread-0 .wathread-1 a.record b.record
rm folder/.wathread-0 folder/.wathread-1 folder/b.record
long=$(printf 'r%.0s' {1..255})
ends 0 "$ADDED" '' "${add[@]}" --record "folder/$long"
cmp -s whole "folder/$long" || say 'the record with a long name is another'
rm "folder/$long"
ends 0 "$ADDED"$'\n'"$(<whole)" '' sh -c './wathread run atomic_add.wasm --invoke f --record /dev/stdout | cat'
ends 0 "$ADDED" '' "${add[@]}" --record /dev/null
[ -c /dev/null ] || say '/dev/null is no device'
ends 5 "$ADDED" "file fault: /dev/full$full" "${add[@]}" --record /dev/full
for page in --html --trace; do
    ends 5 '' "file fault: /dev/full$full" ./wathread show atomic_add.wasm whole "$page" /dev/full
done
# a limit on the size of files stands for a full disk
echo old >folder/a.record
said=$(trap '' XFSZ; ulimit -f 0; "${add[@]}" --record folder/a.record 2>&1; echo $?)
[[ $said =~ ^"$ADDED"$'\nfile fault: folder/a.record\n'.+$'\n5'$ ]] || say "a full disk: $said"
[ "$(<folder/a.record)" = old ] || say 'a record that was not written took the place of another'
has folder a.record

# Ctrl-C ends a run at once, and leaves nothing; while the record is written, at most the file beside.
ends 124 '' '' timeout -k 1 -s INT 0.5 "${forever[@]}" folder/a.record
[ "$(<folder/a.record)" = old ] || say 'Ctrl-C left another record'
has folder a.record
for delay in 0.{1,2,3,4,5,6}{0,2,4,6,8}; do
    timeout -k 1 -s INT $delay ./wathread run filling.wasm --invoke f --limit 1000000 --record folder/a.record >.out
    [ $? -ne 137 ] || say "Ctrl-C after $delay s does not end a run"
    [ "$(<folder/a.record)" = old ] || [ "$(tail -n 1 folder/a.record)" = finish ] || say "after $delay s Ctrl-C left half a record"
    echo old >folder/a.record
    rm -f folder/.wathread-*
    tried=$((tried + 1))
done
has folder a.record

# Standard output and standard error that are full or closed.
full() { "$@" >/dev/full; }
export -f full
ends 5 '' 'file fault: standard output' bash -c 'full ./wathread check atomic_add.wasm'
ends 5 '' 'file fault: standard output' bash -c 'full ./wathread run atomic_add.wasm --invoke f'
ends 5 '' 'file fault: standard output' bash -c 'full ./wathread --help'
ends 5 '' 'file fault: standard output' bash -c 'full ./wathread --version'
ends 3 '' '' bash -c './wathread run 2>/dev/full'
ends 2 '' '' bash -c './wathread check cut.wasm 2>/dev/full'
ends 5 '' '' bash -c './wathread check atomic_add.wasm >/dev/full 2>/dev/full'
ends 5 '' '' bash -c './wathread check atomic_add.wasm >&- 2>&-'
for words in 'check atomic_add.wasm' 'run atomic_add.wasm --invoke f' 'run atomic_add.wasm --invoke f --record folder/c.record' \
    'replay atomic_add.wasm whole' --help; do
    ends 5 '' '' bash -c "set -o pipefail; (sleep 0.1; ./wathread $words) | true"
done
# A record has its place though its lines are lost.
has folder a.record c.record
cmp -s whole folder/c.record || say 'the record of a run whose lines are lost is another'
rm folder/c.record
cp "$top/examples/search/broken.wasm" broken.wasm
for lost in '>/dev/full' '>&-' '| true'; do
    bash -c "set -o pipefail; ./wathread search broken.wasm --invoke f 1 --find 'thread 0: ok i32:1' --record folder/c.record $lost" 2>/dev/null
    [ $? = 5 ] || say "a search whose lines are lost: $lost"
    [ "$(tail -n 1 folder/c.record 2>/dev/null)" = finish ] || say "the record of a search whose lines are lost: $lost"
    rm -f folder/c.record
    tried=$((tried + 1))
done
has folder a.record
# What is read is never written.
cp same.wasm names.wasm
ends 3 '' '.*' ./wathread show same.wasm whole --names names.wasm --html ./folder/../names.wasm
cmp -s same.wasm names.wasm || say 'a page took the place of the names'

# Output comes in one piece, so lines of two runs don't mix.
if command -v strace >/dev/null; then
    for words in 'run counting.wasm --invoke f --dump 4096' '--help' 'check' 'check nothing.wasm'; do
        # shellcheck disable=SC2086
        pieces=$(strace -f -e trace=write,writev -o .trace ./wathread $words >.out 2>.err; grep -c 'write' .trace)
        [ "$pieces" -eq 1 ] || say "$pieces writes: $words"
        tried=$((tried + 1))
    done
fi
rm -f .pipe && mkfifo .pipe
sort .pipe | uniq -c | awk '{ print $1 }' | sort -u >.counts &
for _ in {1..20}; do ./wathread run counting.wasm --invoke f --dump 64 & done >.pipe
wait
[ "$(<.counts)" = 20 ] || say "lines of runs that share a pipe are mixed: $(<.counts)"

echo "$tried tried, $wrong wrong"
[ $wrong -eq 0 ]

#!/bin/bash
# What wathread-cc refuses: one line, status 1, and OUT is what it was; and that signals leave nothing of it. It wants no
# wathread, but gcc, and as root also setpriv. CC names the clang. SIGNALS=N: how many of each kind are sent, 200 else.
set -u
cc_=$(cd "$(dirname "$0")/.." && pwd)/wathread-cc
clang=${CC:-clang}
work=$(mktemp -d)
trap 'chmod -R u+w "$work"; rm -rf "$work"' EXIT
cd "$work" || exit 1
wrong=0 tried=0
other=()
[ "$(id -u)" != 0 ] || other=(setpriv --reuid=65534 --regid=65534 --clear-groups env HOME=/tmp TMPDIR="$work/temporary")
mkdir temporary && chmod 777 temporary && chmod 755 "$work"

say() {
    echo "WRONG: $*"
    wrong=$((wrong + 1))
}

# refuses TEXT WORDS..: the call says one line with the text, with status 1, and neither changes m.wasm nor leaves a file.
refuses() {
    local text=$1 status before
    shift
    tried=$((tried + 1))
    echo old >m.wasm
    before=$(find . -path ./temporary -prune -o -type f -print | sort)
    "$@" >out.text 2>err.text
    status=$?
    [ $status = 1 ] || say "status $status: $*"
    [ "$(wc -l <err.text)" = 1 ] || say "$(wc -l <err.text) lines: $*: $(head -3 err.text)"
    grep -qF -- "$text" err.text || say "said '$(cat err.text)' and not '$text': $*"
    [ ! -s out.text ] || say "on standard output '$(head -1 out.text)': $*"
    [ "$(cat m.wasm)" = old ] || say "OUT is changed: $*"
    rm -f out.text err.text
    [ "$before" = "$(find . -path ./temporary -prune -o -type f -print | sort)" ] || say "a file is left: $*"
}

# passes TEXT WORDS..: a fault of clang or of the linker comes as it is, with status 1, and m.wasm stays.
passes() {
    local text=$1 status
    shift
    tried=$((tried + 1))
    echo old >m.wasm
    "$@" >out.text 2>err.text
    status=$?
    [ $status = 1 ] || say "status $status: $*"
    grep -qF -- "$text" err.text || say "said '$(head -3 err.text)' and not '$text': $*"
    [ "$(cat m.wasm)" = old ] || say "OUT is changed: $*"
    [ ! -e a.wasm ] || say "a.wasm is there: $*"
    rm -f out.text err.text
}

# makes OUT WORDS..: the call says nothing and makes a module at this place.
makes() {
    local out=$1 status
    shift
    tried=$((tried + 1))
    "$@" >out.text 2>err.text
    status=$?
    [ $status = 0 ] || say "status $status: $*: $(head -3 err.text)"
    [ ! -s err.text ] && [ ! -s out.text ] || say "said '$(head -1 out.text err.text)': $*"
    [ "$(head -c 4 "$out" | tail -c 3)" = asm ] || say "no module at $out: $*"
    rm -f out.text err.text
}

cat >good.c <<'END'
#include <pthread.h>
static _Atomic int sum;
static void *add(void *n) { sum += (int)n; return 0; }
int main(void) {
    pthread_t t;
    pthread_create(&t, 0, add, (void *)3);
    pthread_join(t, 0);
    return sum;
}
END
cp good.c 'two words & a "quote".c'
cat >nothing_to_call.c <<'END'
int f(void) { return 1; }
END
cat >other.c <<'END'
#include <wathread.h>
int g(void);
EXPORT("f") int f(void) { return g(); }
END
echo 'int g(void) { return 2; }' >third.c
echo 'int g(void) { return 4; }' >twice.c
echo 'int g(int); int main(void) { return g(1); }' >another.c
printf '%s\n' 'extern int value;' 'static int get(void) { return value; }' \
    'int take_too(void); int take(void) { return get() + take_too(); }' >lacks.c
echo 'extern int value; int take_too(void) { return value; }' >lacks_too.c
echo 'static int x = 3 int main(void) { return x; }' >wrong.c
echo 'int ftok(const char *, int); int main(void) { return ftok("a", 1); }' >missing.c
echo '#include <poll.h>
int main(void) { return 0; }' >header.c
echo '#include <stdio.h>
int main(void) { char s[9]; return fgets(s, 9, stdin) == s; }' >input.c
echo '#include <signal.h>
int main(void) { struct sigaction s = {0}; s.sa_handler = SIG_IGN; return sigaction(SIGTERM, &s, 0); }' >signal.c
echo '#include <iostream>
int main() { std::cout << 1; }' >stream.cpp
echo 'static volatile float f = 1; __attribute__((noinline)) static int average(void) { return f * 2; } int main(void) { return average(); }' >float.c
echo '_Atomic signed char lock = -1; int take(void) { signed char free = -1; return __c11_atomic_compare_exchange_strong(&lock, &free, 0, 5, 5); }' >byte.c
echo 'int take(void); int main(void) { return take(); }' >taker.c
echo 'int main(void) { __asm__("no_such_instruction"); static _Atomic char c; char e = 1; return __c11_atomic_compare_exchange_strong(&c, &e, 0, 5, 5); }' >statement.c
echo '#include <wathread.h>
EXPORT("half") double half(double x) { return x; }' >float_type.c
echo 'typedef float (*F)(float); F volatile f; int main(void) { return f(1) > 2; }' >float_pointer.c
echo 'static char big[20 << 20]; int main(int n, char **a) { (void)a; big[n] = 1; return big[n + 1]; }' >big.c
echo 'extern _Thread_local int x; _Atomic int y; _Thread_local int x; int h(void) { y++; return x++; }' >object.c
echo '#include <stdlib.h>
int main(void) { return !malloc(5); }' >pool.c
echo '#include <stdatomic.h>
int take(_Atomic int *p) { return atomic_load_explicit(p, memory_order_acquire); }' >weaker.c
echo '#include <wathread.h>
__attribute__((import_module("env"), import_name("log"))) void log_it(int);
int main(void) { log_it(1); return 0; }' >import.c
{
    echo 'int main(void) { volatile int x = 0;'
    for i in $(seq 1200); do echo "int y$i = x; x += y$i * 7;"; done
    echo 'return x; }'
} >long.c
{
    echo 'static volatile int x; int main(void) {'
    for i in $(seq 4000); do echo "x = x * $i + x;"; done
    echo 'return x; }'
} >longer.c

# words
refuses 'no source' "$cc_" -o m.wasm
refuses 'no source' "$cc_"
refuses '-o wants a value' "$cc_" good.c -o
refuses '-o wants a path' "$cc_" good.c -o ''
refuses '--threads wants a value' "$cc_" good.c -o m.wasm --threads
for value in 0 64 -1 many '' 07 99999999999999999999; do
    refuses "--threads $value: it takes 1 to 63" "$cc_" good.c -o m.wasm --threads "$value"
done
for value in wait waits, '' waits,mallocs ,; do
    refuses "--spurious=$value: it takes waits, trials, exchanges, timeouts and malloc" "$cc_" good.c "--spurious=$value"
done
refuses '--orders tso: it takes c11 or sc' "$cc_" good.c -o m.wasm --orders tso
refuses "-DORDERS_PLACES=128 isn't there any more" "$cc_" good.c -o m.wasm --orders c11 -DORDERS_PLACES=128
refuses '--threads 63: with --orders c11 it takes 1 to 62' "$cc_" good.c -o m.wasm --orders=c11 --threads 63
for option in stack pool; do
    for value in 0 63 16777217 99999999999999999999 -64 4k; do
        refuses "--$option $value: it takes 64 to 16777216" "$cc_" good.c -o m.wasm --$option "$value"
        refuses "--$option $value: it takes 64 to 16777216" "$cc_" good.c -o m.wasm --$option="$value"
    done
done
refuses 'is a module and no source' "$cc_" good.c m.wasm
for option in -D -U -I -L -l -x -include -isystem -idirafter -Xclang -Xlinker -MF -MT -mllvm --param -target; do
    refuses "$option wants a value; usage:" "$cc_" good.c $option
    refuses "$option wants a value; usage:" "$cc_" good.c -o m.wasm $option
done
for option in -D -U -I -include -x -MF; do
    refuses "$option wants a value, and -o is an option" "$cc_" good.c $option -o m.wasm
done
refuses 'no source' "$cc_" -x c -o m.wasm
refuses 'no source' "$cc_" -D X -I . -o m.wasm
for option in --target=x86_64 '-target x86_64' -m64 -m32 -march=native -mcpu=generic -shared; do
    # shellcheck disable=SC2086
    refuses "$option: the target is always wasm32, with threads" "$cc_" $option good.c -o m.wasm
done
makes m.wasm "$cc_" --target=wasm32 -target wasm32 -D X=3 -U X -I . -x c good.c -x none -L . -o m.wasm
for words in '' --help 'a b c' 'm.wasm stack 2 m.wasm c d' 'a b c d e f g'; do
    # shellcheck disable=SC2086
    refuses 'usage: wathread-link LINKED STACK' "$(dirname "$cc_")/wathread-link" $words
done
refuses 'nowhere: No such file' "$(dirname "$cc_")/wathread-link" nowhere 64 1 m.wasm nowhere nowhere
[ "$("$cc_" -Wsuch-thing good.c -o m.wasm 2>&1 | grep -c "'-Wsuch-thing'")" = 1 ] || say "a warning isn't told once"

# what is compiled isn't written over, whatever its name there
cp good.c kept.c && ln good.c hard.c && ln -s good.c soft.c && echo good.c -O1 >words
"$cc_" -c third.c -o third.o && cp third.o kept.o && llvm-ar rc libthird.a third.o || say "third.o"
for does in '' -c -S -E -M; do
    for second in '' third.c; do
        for path in good.c ./good.c "$work/good.c" nowhere/../good.c hard.c soft.c; do
            [ "$path" != nowhere/../good.c ] || mkdir nowhere
            # shellcheck disable=SC2086
            refuses "$path is what is compiled" "$cc_" $does good.c $second -o "$path"
            # shellcheck disable=SC2086
            refuses "good.c is what is compiled" "$cc_" $does "$path" $second -o good.c
            [ ! -d nowhere ] || rmdir nowhere
        done
    done
done
refuses 'soft.c is what is compiled' "$cc_" -c hard.c -o soft.c
refuses './good.c is what is compiled' "$cc_" third.c -include good.c -o ./good.c
refuses './good.c is what is compiled' "$cc_" third.c -includegood.c -o ./good.c
refuses 'hard.c is what is compiled' "$cc_" @words -o hard.c
refuses './third.o is what is compiled' "$cc_" good.c third.o -o ./third.o
refuses 'third.o is what is compiled' "$cc_" good.c -Wl,third.o -o third.o
refuses 'third.o is what is compiled' "$cc_" other.c -Xlinker "$work/third.o" -o third.o
refuses 'libthird.a is what is compiled' "$cc_" other.c -L. -lthird -o libthird.a
refuses 'hard.c is what is compiled' "$cc_" -c good.c -MD -MF hard.c -o m.wasm
refuses 'hard.c is what is compiled' "$cc_" -M good.c -MFhard.c
ln good.c good.o && ln -s ../good.c temporary/good.s && ln -s good.c a.wasm
refuses 'good.o is what is compiled' "$cc_" -c good.c
refuses 'good.o is what is compiled' "$cc_" -c -x c good.o
refuses 'a.wasm is what is compiled' "$cc_" good.c
(cd temporary && refuses 'good.s is what is compiled' "$cc_" -S third.c ../good.c 2>&1) | grep WRONG && wrong=$((wrong + 1))
cmp -s good.c kept.c && cmp -s third.o kept.o || say "what was compiled is another"
rm -f hard.c soft.c good.o temporary/* a.wasm words libthird.a kept.o
"$cc_" -c third.c -MT third.o -MD -MP -MF third.d -o third.o && "$cc_" -c third.c -MT third.o -MF third.d -MD -o third.o &&
    grep -q '^third.o:' third.d || say "an object is made once more, with its rule"
"$cc_" -c -x c /dev/null -o /dev/null || say "of /dev/null"
rm -f third.o third.d
passes "'--thread'" "$cc_" good.c -o m.wasm --thread 4
passes 'unknown argument' "$cc_" good.c -o m.wasm -fno-such-thing

# the tools
refuses "no-clang isn't there" env CC=no-clang "$cc_" good.c -o m.wasm
refuses 'gcc is no clang' env CC=gcc "$cc_" good.c -o m.wasm
printf '#!/bin/sh\ncat >/dev/null\necho 13\n' >old-clang && chmod +x old-clang
refuses 'is of version 13' env CC=./old-clang "$cc_" good.c -o m.wasm
mkdir bare
for tool in sh env dirname readlink cat mktemp rm "${clang%% *}"; do ln -s "$(command -v "$tool")" bare; done
refuses "python3 isn't there" env PATH="$work/bare" "$cc_" good.c -o m.wasm
refuses "python3 isn't there" env PATH="$work/bare" "$cc_" -c good.c -o m.wasm
rm -r bare

# paths
refuses 'm: ' "$cc_" good.c -o nowhere/m
refuses 'm: ' "$cc_" -c good.c -o nowhere/m
mkdir folder read-only && cp good.c read-only && chmod 755 folder && chmod 555 read-only
refuses 'folder is a folder' "$cc_" good.c -o folder
refuses 'Permission denied' "${other[@]}" "$cc_" read-only/good.c -o read-only/m
passes "no such file or directory: 'nothing.c'" "$cc_" nothing.c -o m.wasm
passes "no such file or directory: 'nothing.c'" "$cc_" good.c nothing.c -o m.wasm
passes 'Is a directory' "$cc_" folder -o m.wasm
passes 'error: expected' "$cc_" -c good.c wrong.c
[ ! -e good.o ] || say "good.o is there, and wrong.c failed"
rm -rf folder
mkdir 'a folder of ours'
makes 'a folder of ours/the module' "$cc_" 'two words & a "quote".c' -o 'a folder of ours/the module'
makes a.wasm "$cc_" good.c && rm a.wasm
makes m.wasm "$cc_" good.c -om.wasm
makes m.wasm "$cc_" other.c third.c -o m.wasm
ln -s m.wasm link.wasm
makes link.wasm "$cc_" good.c -o link.wasm
[ -L link.wasm ] || say "a link is a link no more"
makes m.wasm "$cc_" -pthread -std=c11 -Wall -Wextra -Werror good.c -lpthread -o m.wasm
makes m.wasm "$cc_" -x c - -o m.wasm <good.c
makes m.wasm "$cc_" --threads 63 --stack=64 --pool 64 good.c -o m.wasm
makes m.wasm "$cc_" --threads 1 --stack 8000000 good.c -o m.wasm
"$cc_" good.c -o /dev/null || say "/dev/null"
[ -c /dev/null ] || say "/dev/null is gone"
[ "$("$cc_" good.c -o /dev/stdout | head -c 4 | tail -c 3)" = asm ] || say "/dev/stdout"
"$cc_" good.c -o /dev/full 2>err.text && say "/dev/full"
grep -q 'No space left' err.text || say "/dev/full: $(cat err.text)"
"$cc_" --help | head -1 | grep -q '^usage: wathread-cc' || say "--help"
"$cc_" --version | grep -q clang || say "--version"

# signals
rm err.text
refuses "can't be made" env TMPDIR="$work/nowhere" "$cc_" good.c -o m.wasm
rm -rf temporary/* && mkdir place fake
for tool in mktemp mkdir python3 "$clang" sed; do # which is told right behind what it did
    for signal in HUP INT TERM; do
        printf '#!/bin/bash\n%s "$@"\nstatus=$?\nkill -%s $PPID\nexit $status\n' "$(command -v "$tool")" $signal >fake/"$tool"
        chmod 755 fake/"$tool"
        { TMPDIR=$work/temporary PATH="$work/fake:$PATH" "$cc_" good.c -o place/m.wasm; } >/dev/null 2>&1
        [ -z "$(ls -A temporary)" ] || say "SIG$signal behind $tool leaves $(ls -A temporary)"
        rm -rf temporary/* fake/* place/*
    done
done
for words in 'good.c -o place/m.wasm' '-c good.c -o place/m.o' '--orders c11 good.c -o place/m.wasm'; do
    # what is written beside OUT is of python's making, and not looked at
    # shellcheck disable=SC2086
    TMPDIR=$work/temporary python3 "$(dirname "$cc_")/../bench/signals.py" "${SIGNALS:-200}" temporary place 'm.*,.wathread-*' \
        "$cc_" $words || say "signals: $words"
done
rm -r place fake

# sources
passes 'error: expected' "$cc_" wrong.c -o m.wasm
refuses 'wathread-cc: missing.c: undefined symbol: ftok, used in main, line 1' "$cc_" missing.c -o m.wasm
refuses ': undefined symbol: value, used in get, line 2' \
    "$cc_" lacks.c lacks_too.c taker.c -o m.wasm
refuses 'wathread-cc: duplicate symbol: g: defined in third.c and defined in twice.c' "$cc_" other.c third.c twice.c -o m.wasm
"$cc_" -c third.c -o third.o
refuses 'wathread-cc: duplicate symbol: g: defined in third.o and defined in twice.c' "$cc_" other.c third.o twice.c -o m.wasm
refuses 'in third.c' "$cc_" another.c third.c -o m.wasm
passes 'statement.c:1:' "$cc_" statement.c -o m.wasm
passes "'stdin' is unavailable: wathread has no files and no input" "$cc_" input.c -o m.wasm
passes "'sigaction' is unavailable: wathread has no signals" "$cc_" signal.c -o m.wasm
passes "'poll.h' file not found" "$cc_" header.c -o m.wasm
passes 'undefined symbol: std::cout' "$cc_" -std=c++17 -fno-exceptions -fno-rtti stream.cpp -o m.wasm
for level in 0 1 2 3; do
    refuses 'in average: a float' "$cc_" -O$level float.c -o m.wasm
    refuses 'in main: a float' "$cc_" -O$level float_pointer.c -o m.wasm
    refuses 'in half: a float' "$cc_" -O$level float_type.c -o m.wasm
done
refuses 'there is no main' "$cc_" nothing_to_call.c -o m.wasm
refuses '321 pages of 64 KiB, and a module may have 256: 321 for data and the first stack' "$cc_" big.c -o m.wasm
refuses '273 pages of 64 KiB, and a module may have 256: 17 for data and the first stack, 256 for --threads 16' \
    "$cc_" good.c --stack 1048000 --threads 16 -o m.wasm
refuses '513 pages of 64 KiB' "$cc_" good.c --stack 16777152 --threads 1 -o m.wasm
refuses '257 pages of 64 KiB' "$cc_" pool.c --pool 16777216 -o m.wasm
refuses 'it imports env log' "$cc_" import.c -o m.wasm
refuses 'in main: ' "$cc_" -O0 longer.c -o m.wasm
refuses 'leave out -s' "$cc_" -s good.c -o m.wasm
refuses 'leave out --import-memory' "$cc_" good.c -Wl,--import-memory -o m.wasm
refuses 'leave out --max-memory' "$cc_" good.c -Wl,--max-memory=131072 -o m.wasm
passes '__tls_base' "$cc_" good.c -Wl,--shared-memory,--max-memory=131072 -o m.wasm

# objects
for without in '-matomics' '-mbulk-memory' ''; do
    $clang --target=wasm32 -mcpu=mvp $without -O1 -ftls-model=local-exec -c object.c -o object.o || say "$without"
    refuses 'object.o lost its atomics' "$cc_" good.c object.o -o m.wasm
    rm object.o
done
"$cc_" -c object.c -o object.o && "$cc_" -c good.c -o good.o || say "-c"
makes m.wasm "$cc_" good.o object.o -o m.wasm
$clang --target=wasm32 -mcpu=mvp -matomics -mbulk-memory -msign-ext -O1 -c byte.c -o byte.o || say "byte.o"
refuses 'in take: a compare-exchange of 8 bits by an expected value that may be wider (compile its source' \
    "$cc_" taker.c byte.o -o m.wasm
"$cc_" -c byte.c -o byte.o || say "-c byte.c"
makes m.wasm "$cc_" taker.c byte.o -o m.wasm
for option in --spurious --spurious=waits,malloc --reuse --volatile-atomic '--orders c11'; do makes m.wasm "$cc_" $option good.c -o m.wasm; done
"$cc_" --orders c11 -c object.c -o orders.o || say "--orders c11 -c"
makes m.wasm "$cc_" --orders c11 good.c orders.o -o m.wasm
refuses 'orders.o was made with --orders c11' "$cc_" good.c orders.o -o m.wasm
refuses 'object.o was made without --orders c11' "$cc_" --orders c11 good.c object.o -o m.wasm
tells=$("$cc_" weaker.c good.c -o m.wasm 2>&1)
[ "${tells%% all compiled*}" = 'wathread-cc: weaker.c: memory orders are' ] || say "of weaker orders: '$tells'"
[ -z "$("$cc_" --orders sc weaker.c good.c -o m.wasm 2>&1)" ] || say "of weaker orders with --orders sc"
[ -z "$("$cc_" --orders c11 weaker.c good.c -o m.wasm 2>&1)" ] || say "of weaker orders with --orders c11"
"$cc_" -flto -c object.c -o object.o || say "-flto -c"
refuses 'object.o is made with -flto' "$cc_" good.c object.o -o m.wasm
echo "$tried calls, $wrong wrong"
[ $wrong = 0 ]

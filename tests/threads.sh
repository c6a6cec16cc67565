#!/usr/bin/env bash
# Runs the program under ThreadSanitizer: the code that the kit's compiler hands to LLVM, built once more with each
# access to memory watched. usage: tests/threads.sh [STREAMS]
# A data race, or an output that differs, gives status 1. So does a control without a race: the same code without the
# orderings of its atomic accesses has to race. It needs the kit, Python 3, and Debian's clang with its sanitizers; the
# status is 2 if one of them is missing.
set -eu -o pipefail
here=$(cd "$(dirname "$0")" && pwd)
streams=${1:-200}
for tool in rt clang python3; do
    command -v "$tool" >/dev/null || {
        echo "tests/threads.sh: $tool is not on the PATH" >&2
        exit 2
    }
done
kit=$(dirname "$(rt doc)")
folder=$(mktemp -d)
trap 'rm -r "$folder"' EXIT

# A view of the kit whose compiler leaves a copy of its input.
mkdir -p "$folder/kit/bin" "$folder/kit/toolchain/bin"
for entry in "$kit"/*; do
    case $entry in */bin | */toolchain) ;; *) ln -s "$entry" "$folder/kit/" ;; esac
done
ln -s "$kit"/bin/* "$folder/kit/bin/"
rm "$folder/kit/bin/rt" "$folder/kit/bin/rtlib.py"
cp "$kit/bin/rt" "$kit/bin/rtlib.py" "$folder/kit/bin/"
ln -s "$kit/toolchain/lib" "$folder/kit/toolchain/lib"
ln -s "$kit"/toolchain/bin/* "$folder/kit/toolchain/bin/"
rm "$folder/kit/toolchain/bin/clang"
cat >"$folder/kit/toolchain/bin/clang" <<END
#!/usr/bin/env bash
[ ! -e module.bc ] || cp module.bc "$folder/"
exec -a clang "$kit/toolchain/bin/clang" "\$@"
END
chmod +x "$folder/kit/toolchain/bin/clang"

llvm() {
    (exec -a clang "$kit/toolchain/bin/clang" --target=x86_64-unknown-linux-gnu -x ir "$@")
}

# build NAME: the program of $folder/NAME.ll, watched.
build() {
    llvm "$folder/$1.ll" -c -o "$folder/$1.o" -fPIE -O1 -fsanitize=thread -fno-omit-frame-pointer
    clang -fsanitize=thread -fno-builtin -pie -o "$folder/$1" "$here/sanitizer.c" "$folder/$1.o" \
        "$kit/c/libos_c.a" "$kit/c/liblibc_c.a"
}

crate=$here/../crates/firm
examples=$here/../examples
rm -f "$crate/out/firm"
(cd "$crate" && "$folder/kit/bin/rt" run -- --help) >"$folder/log" 2>&1 || {
    cat "$folder/log"
    exit 1
}
llvm "$folder/module.bc" -S -emit-llvm -O0 -Xclang -disable-llvm-passes -o "$folder/plain.ll"
sed -E 's/^(attributes #[0-9]+ = \{ )/\1sanitize_thread /' "$folder/plain.ll" >"$folder/watched.ll"
sed -E '/cmpxchg|atomicrmw|(load|store) atomic/ s/ (acquire|release|acq_rel|seq_cst)/ monotonic/g' \
    "$folder/watched.ll" >"$folder/unordered.ll"
build watched
build unordered

export TSAN_OPTIONS="exitcode=99"
missed=0

# run SCRIPT WORD..: a script of this folder.
run() {
    local script=$here/$1
    shift
    "$here/../tools/run" "$script" "$@"
}

# day NAME WORKERS: the example day; 99 where a race was seen.
day() {
    "$folder/$1" --workers "$2" --roster "$examples/roster.csv" <"$examples/commands.txt" \
        2>"$folder/races" >"$folder/output"
}

for workers in 1 2 8; do
    if day watched "$workers"; then
        echo "the example day, $workers workers: no race"
    else
        head -40 "$folder/races"
        missed=1
    fi
done
run compare.py --program "$folder/watched" --workers 2 --streams "$streams" --rosters 5 || missed=1
run compare.py --program "$folder/watched" --workers 8 --streams "$streams" --rosters 5 --pieces || missed=1
run live.py --program "$folder/watched" --only "line by line" --streams 20 || missed=1
if day unordered 2; then
    echo "MISSED: no race without orderings, so the sanitizer watched nothing"
    missed=1
else
    echo "the control, without orderings: $(grep -c WARNING "$folder/races") races"
fi
exit $missed

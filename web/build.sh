#!/bin/bash
# Makes out/svcsim.html, one page that needs no server, from a checkout and the kit alone.
#
#   web/build.sh          `rt lib` proves svc_page, and the crates below it, for x86-64, and builds its static library
#   web/build.sh --try    for quick work: the module that `rt try` compiles, of which nothing is proved, as out/try.html
#
# The LLVM module of that build is compiled once more, for WebAssembly with 64-bit addresses, and linked with heap.c,
# which stands for the C library's heap. No proof covers that second compilation, heap.c, abi.ll, helpers.c or the
# page's own code: they are tested.
set -euo pipefail
here=$(cd "$(dirname "$0")" && pwd)
root=$(cd "$here/.." && pwd)
kit=$(dirname "$(dirname "$(readlink -f "$(command -v rt)")")")
llvm=$kit/toolchain/bin
out=$here/out
name=svcsim
level=-O3
stack=4194304
if [ "${1:-}" = --try ]; then
    name=try
    level=-O0
    stack=33554432
fi
work=$(mktemp -d)
trap 'rm -rf "$work"' EXIT
mkdir -p "$out" "$work/kit/bin" "$work/kit/toolchain/bin"

# The kit, but for a clang that also keeps the module that it is given.
for it in "$kit"/*; do
    case ${it##*/} in bin | toolchain) ;; *) ln -s "$it" "$work/kit/" ;; esac
done
cp "$kit/bin/rt" "$kit/bin/rtlib.py" "$work/kit/bin/"
for it in "$kit"/bin/*; do [ -e "$work/kit/bin/${it##*/}" ] || ln -s "$it" "$work/kit/bin/"; done
ln -s "$kit/toolchain/lib" "$work/kit/toolchain/"
for it in "$llvm"/*; do [ "${it##*/}" = clang ] || ln -s "$it" "$work/kit/toolchain/bin/"; done
cat > "$work/kit/toolchain/bin/clang" <<END
#!/bin/bash
for it in *.bc; do if [ -f "\$it" ]; then cp "\$it" "$work/module.bc"; fi; done
exec "$llvm/clang" "\$@"
END
chmod +x "$work/kit/toolchain/bin/clang"

if [ "$name" = try ]; then
    "$here/try_module" "$root" "$work"
else
    (cd "$root/crates/svc_page" && "$work/kit/bin/rt" lib) | tee "$out/proof.txt" | grep '^logic='
    grep -q '^logic=proved ' "$out/proof.txt"
    "$llvm/clang" -x ir "$work/module.bc" -S -emit-llvm -Xclang -disable-llvm-passes -o "$work/x86.ll"
fi

# The module, of which nothing is changed but what it says of the processor.
wasm=(--target=wasm64-unknown-unknown -mcpu=lime1)
layout=e-m:e-p:64:64-p10:8:8-p20:8:8-i64:64-i128:128-n32:64-S128-ni:1:10:20
sed -E \
    -e "s/^target datalayout = .*/target datalayout = \"$layout\"/" \
    -e 's/^target triple = .*/target triple = "wasm64-unknown-unknown"/' \
    -e '/^attributes #/s/ "(frame-pointer|probe-stack|stack-probe-size|target-cpu)"="[^"]*"//g' \
    "$work/x86.ll" > "$work/page.ll"
if grep -n '@llvm\.x86\|asm sideeffect' "$work/page.ll" | head -3 | grep .; then
    echo "the module has code for one processor alone" >&2
    exit 1
fi
"$llvm/clang" "${wasm[@]}" -mllvm -expand-div-rem-bits=64 "$level" -ffunction-sections -c -x ir "$work/page.ll" \
    -o "$work/page.o"
"$llvm/clang" "${wasm[@]}" -O2 -c -x ir "$here/abi.ll" -o "$work/abi.o"
for it in heap helpers; do
    "$llvm/clang" "${wasm[@]}" -O2 -ffreestanding -nostdinc -fno-builtin -c "$here/$it.c" -o "$work/$it.o"
done
"$llvm/ld.lld" -flavor wasm -mwasm64 --no-entry --stack-first -z "stack-size=$stack" --export=svc_page_answer \
    --gc-sections --fatal-warnings -o "$out/$name.wasm" "$work"/{page,abi,heap,helpers}.o
/usr/bin/python3 "$here/build_page.py" "$out/$name.wasm" > "$out/$name.html"
wc -c "$out/$name.wasm" "$out/$name.html"

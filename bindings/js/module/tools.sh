# Sourced by the scripts here: the toolchain's clang and linker for WebAssembly, and Binaryen. `room` is a folder of the caller's.
clang=$(dirname "$(rt doc)")/toolchain/bin/clang

# Features that Node 18 has. With vectors the loops over JSON take half the time.
flags=(--target=wasm64-unknown-unknown -mcpu=mvp -msimd128 -mbulk-memory -msign-ext -mnontrapping-fptoint -mmutable-globals
    --no-default-config -ffunction-sections -fdata-sections)
features=(--enable-memory64 --enable-simd --enable-bulk-memory --enable-sign-ext --enable-nontrapping-float-to-int
    --enable-mutable-globals)

compile_c() { # SOURCE.c OBJECT [FLAG..]
    "$clang" "${flags[@]}" -O2 -std=c11 -ffreestanding -fno-builtin -Wall -Wextra -Wno-unused-parameter -Werror "${@:3}" -c "$1" -o "$2"
}

# link FOLDER NAME OBJECT.. -- EXPORT..: makes FOLDER/NAME64.wasm, and of it FOLDER/NAME.wasm with a memory of 32 bits, if there is
# Binaryen. The stack is lowest, so that it can't grow into data: an overflow leaves the memory, which traps. It is an error if nothing
# defines a name.
link() {
    local folder=$1 name=$2 objects=() exports=()
    shift 2
    while [ "$1" != -- ]; do objects+=("$1"); shift; done
    shift
    for it in "$@"; do exports+=("--export=$it"); done
    ln -sf "$clang" "$room/wasm-ld"
    "$room/wasm-ld" -mwasm64 --no-entry --stack-first -z stack-size=1048576 --max-memory=4294967296 --gc-sections --strip-all \
        "${exports[@]}" "${objects[@]}" -o "$room/linked.wasm"
    if command -v wasm-opt >/dev/null; then
        "$(dirname "${BASH_SOURCE[0]}")/narrow" "$room/linked.wasm" "$room/narrow.wasm" "${features[@]}"
        wasm-opt "${features[@]}" -O3 "$room/narrow.wasm" -o "$folder/$name.wasm"
        wasm-opt "${features[@]}" -O3 "$room/linked.wasm" -o "$folder/${name}64.wasm"
    else
        cp "$room/linked.wasm" "$folder/${name}64.wasm"
    fi
}

# What the host calls of the heap, and what tests call of it besides.
host=(heap_take heap_give_back heap_clear)
counted=(heap_blocks heap_refuse_after)

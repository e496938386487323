#!/bin/sh
# Tests the library for C for Windows and macOS, from the assembly in c/generated, and its build by CMake.
#
# Windows on x86-64: all C tests by wine, over the archive, and one over the DLL (make check-windows). macOS on x86-64 and AArch64: there is
# no machine here, so nothing runs. Clang assembles the files for macOS. The objects define each proved call for the library alone, need the
# functions of c/src/memory.c and of the C library and no others, and have data for unwinding for each function; on AArch64 no
# instruction uses x18, which belongs to Apple. CMake builds the library for this machine and, by mingw-w64, for Windows; its tests run; a
# program finds the installed package.
#
# Needs gcc-mingw-w64-x86-64-win32 and wine64 for Windows, clang and llvm for macOS, and cmake. It installs missing Debian packages if
# that is allowed, and otherwise skips what needs them, with words that say so. The last line says what passed; the status is 0 if all did.
set -eu

root=$(cd "$(dirname "$0")/.." && pwd)
work=$(mktemp -d)
trap 'rm -rf "$work"' EXIT
cd "$root"

fail() {
    echo "systems: $1" >&2
    exit 1
}

# step WORDS..: one command, whose output is shown if it fails
step() {
    "$@" >"$work/log" 2>&1 || {
        cat "$work/log" >&2
        fail "$* failed"
    }
}

# needs FILE-OR-COMMAND PACKAGE..: installs the packages if it is missing
needs() {
    tool=$1
    shift
    [ -e "$tool" ] || command -v "$tool" >/dev/null || { [ "$(id -u)" -eq 0 ] &&
        DEBIAN_FRONTEND=noninteractive apt-get install -qq -y --no-install-recommends "$@" >/dev/null 2>&1 &&
        { [ -e "$tool" ] || command -v "$tool" >/dev/null; }; }
}

# The object of one of the files for macOS, $1, for the target $2.
check_macos() {
    step clang "--target=$2" -c "c/generated/$1.S" -o "$work/$1.o"
    llvm-nm "$work/$1.o" >"$work/$1.names" 2>/dev/null
    sed -n 's/^.* [tT] _proved_\(cpay_[a-z0-9_]*\)$/\1/p' "$work/$1.names" | sort >"$work/found"
    sed -n 's/.*proved_\(cpay_[a-z0-9_]*\)(.*/\1/p' c/src/calls.c | sort -u >"$work/wanted"
    cmp -s "$work/found" "$work/wanted" || fail "$1 does not define the calls that c/src/calls.c makes"
    [ "$(grep -c '^	.private_extern	_proved_cpay_' "c/generated/$1.S")" = "$(wc -l <"$work/wanted")" ] || fail "a call of $1 is not private"
    others=$(awk '$1 == "U" { print $2 }' "$work/$1.names" | grep -v -x -E '_(rattle_(alloc|realloc|dealloc)|mem(cpy|move|set)|bzero|__bzero|__udivti3)' || true)
    [ -z "$others" ] || fail "$1 needs $others"
    functions=$(grep -c '^	.cfi_startproc' "c/generated/$1.S")
    unwound=$(llvm-dwarfdump --eh-frame "$work/$1.o" | grep -c ' FDE ')
    [ "$functions" -gt 300 ] && [ "$functions" = "$unwound" ] || fail "$functions functions of $1, and data for unwinding for $unwound"
    case $1 in
    aarch64*) ! llvm-objdump -d --no-show-raw-insn "$work/$1.o" | grep -E '\b[xw]18\b' || fail "$1 uses x18" ;;
    esac
}

# by_cmake FOLDER WORDS..: builds and tests the library in that folder
by_cmake() {
    folder=$1
    shift
    step cmake -S . -B "$folder" -DCMAKE_BUILD_TYPE=Release "$@"
    step cmake --build "$folder" -j 2
    step env WINEDEBUG=-all ctest --test-dir "$folder" --output-on-failure
    step cmake --install "$folder" --prefix "$folder/installed"
    mkdir -p "$folder/use"
    cp examples/first.c "$folder/use"
    cat >"$folder/use/CMakeLists.txt" <<'END'
cmake_minimum_required(VERSION 3.18)
project(use C)
find_package(codec-payload REQUIRED)
add_executable(shared first.c)
target_link_libraries(shared PRIVATE codec-payload::codec-payload)
add_executable(static first.c)
target_link_libraries(static PRIVATE codec-payload::static)
END
    step cmake -S "$folder/use" -B "$folder/used" "-DCMAKE_PREFIX_PATH=$folder/installed" "-DCMAKE_FIND_ROOT_PATH=$folder/installed" "$@"
    step cmake --build "$folder/used"
}

windows="Windows skipped, without mingw-w64 or wine64"
wine=/usr/lib/wine/wine64
has_windows=
! needs x86_64-w64-mingw32-gcc gcc-mingw-w64-x86-64-win32 || ! needs $wine wine64 || has_windows=yes
[ -z "$has_windows" ] || {
    step make check-windows strict=-Werror
    programs=$(sed -n 's/^check: \([0-9]* programs\), all passed/\1/p' "$work/log")
    ! needs llvm-readobj llvm || {
        functions=$(grep -c '^[[:space:]]*\.seh_proc' c/generated/x86_64-windows.S)
        unwound=$(llvm-readobj --unwind c/out/windows/proved.o | grep -c '^ *RuntimeFunction {')
        [ "$functions" -gt 300 ] && [ "$functions" = "$unwound" ] || fail "$functions functions for Windows, and data for unwinding for $unwound"
    }
    windows="Windows x86-64 by wine, $programs"
}
macos="macOS skipped, without clang or llvm"
! needs clang clang || ! needs llvm-objdump llvm || {
    check_macos x86_64-macos x86_64-apple-macosx11.0
    check_macos aarch64-macos arm64-apple-macosx11.0
    macos="macOS x86-64 and AArch64, assembled and read, not run"
}
cmake="CMake skipped, since it is not installed"
! needs cmake cmake || {
    by_cmake "$work/native"
    step "$work/native/used/shared"
    cmake="CMake on this machine"
    [ -z "$has_windows" ] || {
        by_cmake "$work/windows" -DCMAKE_SYSTEM_NAME=Windows -DCMAKE_SYSTEM_PROCESSOR=x86_64 -DCMAKE_C_COMPILER=x86_64-w64-mingw32-gcc \
            -DCMAKE_RC_COMPILER=x86_64-w64-mingw32-windres "-DCMAKE_CROSSCOMPILING_EMULATOR=$wine"
        step env WINEDEBUG=-all $wine "$work/windows/used/static.exe"
        cmake="$cmake and for Windows"
    }
}
echo "systems: $windows; $macos; $cmake"

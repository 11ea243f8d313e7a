# Sourced by run, program, bench, instructions and bite: which compiler, where things lie, and how programs are built.
# The library and the small program are x86-64 code, and the toolchain has no emulator: elsewhere there is the stand-in alone.

here=$(cd "$(dirname "${BASH_SOURCE[0]}")" && pwd)
root=$(dirname "$here")
out=$root/target/compare
library=${POST_LIBRARY:-$root/target/staticlib/libpost.a}
verdict=$root/target/bin/verdict  # the small program
holding=(hold shrink ground shapes reasons words reference)  # what a program that holds the calls is linked with
flags=(-I"$root/include" -std=c++17 "${OPTIMIZE:--O2}" -Wall -Wextra)
fail() { echo "compare: $*" >&2; exit 2; }

# need COMMAND PACKAGE: installs Debian's package if the command (or the file) is not there, and says so.
need() {
  if [[ $1 == /* ]]; then [[ -e $1 ]] && return; else command -v "$1" >/dev/null && return; fi
  echo "compare: installing Debian's $2, for $1"
  local as=()
  [[ $(id -u) == 0 ]] || as=(sudo)
  "${as[@]}" apt-get install -y --no-install-recommends "$2" >/dev/null 2>&1 || {
    "${as[@]}" apt-get update >/dev/null 2>&1
    "${as[@]}" apt-get install -y --no-install-recommends "$2" >/dev/null 2>&1 || fail "could not install $2"
  }
}

# Ends with a sentence where the small program is not built: what is not there was not held.
program_built() {
  [[ -x $verdict ]] || fail "there is no ${verdict#"$root"/}, the small program: build it with \`tools/build program verdict\`"
}

# A flavour is how the calls are come by: `standin`, the plain C++ calls, native; or `library`, libpost.a.
choose() {
  flavour=$1
  compiler=g++
  need g++ g++
  [[ $flavour == library ]] || return 0
  [[ -f $library ]] || fail "there is no $(realpath -m --relative-to="$PWD" "$library"): build it with \`tools/build archive\`, or name standin"
  x86_64_code
}

# Ends with a sentence where x86-64 code does not run.
x86_64_code() {
  [[ $(uname -m) == x86_64 ]] || fail "the library is for x86-64, and the toolchain has no emulator for $(uname -m): name standin, where a script takes it"
}

# compile SOURCE...: an object of each in the flavour's folder, two at a time, where the source or a header is newer.
compile() {
  mkdir -p "$out/$flavour"
  local name object running=() pid
  for name in "$@"; do
    object=$out/$flavour/$name.o
    [[ -f $object && -z $(find "$here/$name.cpp" "$root"/include/post.h "$here"/*.hpp -newer "$object") ]] && continue
    "$compiler" "${flags[@]}" -c -o "$object" "$here/$name.cpp" &
    running+=($!)
    if (( ${#running[@]} == 2 )); then wait "${running[0]}" || fail "$name did not compile"; running=("${running[1]}"); fi
  done
  for pid in "${running[@]}"; do wait "$pid" || fail "something did not compile"; done
}

# build_example NAME [SOURCE]: the program example_NAME of examples/NAME.c, or of another source, and the calls. As C and strictly so, for people's programs
# may be C.
build_example() {
  local source=${2:-$root/examples/$1.c}
  gcc -I"$root/include" -std=c99 -pedantic -Wall -Wextra -Werror "${OPTIMIZE:--O2}" -c -o "$out/$flavour/example_$1.o" "$source" ||
    fail "${source#"$root"/} did not compile"
  link "example_$1" "example_$1" calls
}

# link PROGRAM SOURCE...: the program from objects, with the calls of the flavour where `calls` is named.
link() {
  local program=$1 name objects=()
  shift
  for name in "$@"; do
    if [[ $name == calls ]]; then
      if [[ $flavour == library ]]; then objects+=("$library"); else objects+=("$out/$flavour"/{standin,sweep,lines,bits}.o); fi
    else
      objects+=("$out/$flavour/$name.o")
    fi
  done
  "$compiler" -o "$out/$flavour/$program" "${objects[@]}" || fail "$program did not link"
}

run() {
  local program=$1
  shift
  "$out/$flavour/$program" "$@"
}

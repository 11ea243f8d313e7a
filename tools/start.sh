# Sourced by judge and night: what starts a proved program, the copy of a plan file that it reads, and the sentences that both say. Works on x86-64, which today's toolchain builds for.
# Whoever sources it has set `here`, where the repository lies, and `name`, the command that speaks.

say() { printf '%s: %s\n' "$name" "$*" >&2; }

# have COMMAND PACKAGE: Debian's package where the command is not there.
have() { (source "$here/compare/machine.sh" && need "$1" "$2") >&2 || exit 2; }

# Ends with 2, for wrong use, where a plan file cannot be read.
readable() {
  if [ ! -e "$1" ]; then say "there is no file $1"; exit 2; fi
  if [ -d "$1" ]; then say "$1 is a folder, not a plan file"; exit 2; fi
  if [ ! -r "$1" ]; then say "$1 cannot be read: no permission"; exit 2; fi
}

# keep FILE: leaves a copy of it, `plan`, in a folder of our own, `folder`, which goes when we end. The file is read once, since it may be a
# pipe. No plan file is nearly so long: what is cut there is refused as the whole would be.
keep() {
  folder=$(mktemp -d)
  trap 'rm -rf "$folder"' EXIT
  plan=$folder/plan
  head -c 1000000 <"$1" >"$plan"
}

# build PROGRAM: proves and builds it where it is not there, or older than the source.
build() {
  local program=$here/target/bin/$1 log machine
  if ! command -v rt >/dev/null 2>&1; then say "the Rattle toolchain's command rt is not on the PATH"; exit 2; fi
  machine=$(uname -m)
  if [ "$machine" != x86_64 ]; then say "the program is for x86-64, and the toolchain has no emulator for $machine"; exit 2; fi
  if [ -x "$program" ] && [ -z "$(find "$here/crates" -newer "$program" -path '*/src/*' -print -quit)" ]; then return; fi
  say "proving the library and building the program; the first time this takes a while"
  log=$(mktemp)
  if ! "$here/tools/build" program "$1" >"$log" 2>&1; then
    say "the program was not built; the last lines of the build:"
    tail -n 5 "$log" >&2
    rm -f "$log"
    exit 2
  fi
  rm -f "$log"
  touch "$program"
  say "built"
}

# prepare PROGRAM: builds it and leaves in `run` the words that run it, on standard input and output.
prepare() {
  build "$1"
  run=("$here/target/bin/$1")
}

# What a verdict means, for people.
controllable="the plan can be carried out whatever each duration is within its bounds"
uncontrollable="the plan is uncontrollable: whatever is done, there are durations within their bounds for which a limit is broken"

# say_field CODE PLACE: which field of the kept file a refusal with code 6, 7 or 8 is about, and what is wrong with it.
say_field() {
  local sentence
  sentence=$(have python3 python3 && "$here/tools/planfile" fault "$plan" "$1" "$2") || sentence="the field at byte $2 is out of range"
  say "$sentence"
}

# say_refused CODE PLACE: the refusal of the kept file in a sentence.
say_refused() {
  case $1 in
    1) say "the file has fewer than 24 bytes, so it holds no header" ;;
    2) say "the file's version is not 1" ;;
    3) say "the number of points is not 1 to 64" ;;
    4) say "there are more than 1,024 limits or more than 32 links" ;;
    5) say "an offset in the header or the file's length is not as laid down" ;;
    6 | 7 | 8) say_field "$1" "$2" ;;
    11) say "$uncontrollable" ;;
    *) say "refused with code $1" ;;
  esac
}

# Sourced by the scripts in rust/: which machine this is, what is installed, where the kit and the archive are.

root=$(cd "$(dirname "${BASH_SOURCE[0]}")/.." && pwd -P)
machine=$(uname -m)

say() { echo "$*" >&2; }

# install PACKAGE...: those of Debian's packages that are missing.
install() {
  local missing=()
  local package
  for package in "$@"; do
    dpkg -s "$package" >/dev/null 2>&1 || missing+=("$package")
  done
  [ ${#missing[@]} -eq 0 ] && return 0
  say "installing ${missing[*]}"
  local as=()
  [ "$(id -u)" = 0 ] || as=(sudo)
  "${as[@]}" apt-get update -qq >&2
  "${as[@]}" env DEBIAN_FRONTEND=noninteractive apt-get install -qq -y --no-install-recommends "${missing[@]}" >&2
}

# have COMMAND PACKAGE...: the packages, unless the command is there.
have() {
  local command=$1
  shift
  command -v "$command" >/dev/null 2>&1 || install "$@"
}

# What the original crate leans on.
install_original() { install librust-arrayvec-dev librust-num-traits-dev librust-num-enum-dev; }

# find_kit: sets kit to the folder of the kit whose rt is in PATH, and toolchain to that of its compiler and linker.
find_kit() {
  local command
  command=$(command -v rt) || { say "rt is not there: put the kit's bin/ into PATH"; exit 2; }
  kit=$(cd "$(dirname "$(readlink -f "$command")")/.." && pwd -P)
  toolchain=$kit/toolchain
}

# library NAME PROCESSOR FOLDER [RT]: has rt (or RT) prove the static library of NAME, the crate NAME_c, and build it for every processor of that kind: FOLDER/libNAME.a.
library() {
  local words=(--target "$2-unknown-linux-gnu")
  [ "$2" = x86_64 ] && words+=(--cpu x86-64)
  (cd "$root/crates/$1_c" && "${4:-rt}" lib "${words[@]}") >&2 || exit 1
  mkdir -p "$3"
  cp "$root/crates/$1_c/out/lib$1_c.a" "$3/lib$1.a"
}

# delivered: sets MOFULEKA_ARCHIVE to the archive that is delivered, for x86-64, built if need be (or as the environment says).
delivered() {
  if [ -n "${MOFULEKA_ARCHIVE:-}" ]; then
    MOFULEKA_ARCHIVE=$(realpath "$MOFULEKA_ARCHIVE")
  else
    library mofuleka x86_64 "$root/target/staticlib"
    MOFULEKA_ARCHIVE=$root/target/staticlib/libmofuleka.a
  fi
  export MOFULEKA_ARCHIVE
}

# for_x86_64: everything that is needed to build for x86-64 and to run it; sets how, cargo, target, run and cc.
# On x86-64 the machine's own tools; elsewhere Debian's rustc for x86-64, its cross linker and the emulator.
for_x86_64() {
  if [ "$machine" = x86_64 ]; then
    native
    return
  fi
  how="emulated: x86-64 programs on $machine, under qemu-x86_64"
  local as=()
  [ "$(id -u)" = 0 ] || as=(sudo)
  if ! dpkg --print-foreign-architectures | grep -qx amd64; then
    "${as[@]}" dpkg --add-architecture amd64
    "${as[@]}" apt-get update -qq >&2
  fi
  install rustc cargo libstd-rust-dev:amd64 gcc-x86-64-linux-gnu g++-x86-64-linux-gnu qemu-user libc6:amd64 libstdc++6:amd64
  # A newer cargo's lock file is not read by Debian's; it is made anew.
  rm -f "$root"/rust/*/Cargo.lock
  # Debian's cargo and rustc belong together: its folder comes first.
  export PATH=/usr/bin:$PATH
  cargo=/usr/bin/cargo
  target=x86_64-unknown-linux-gnu
  export CARGO_TARGET_X86_64_UNKNOWN_LINUX_GNU_LINKER=x86_64-linux-gnu-gcc
  export CARGO_TARGET_X86_64_UNKNOWN_LINUX_GNU_RUNNER='qemu-x86_64 -L /'
  run=(qemu-x86_64 -L /)
  cc=x86_64-linux-gnu-gcc
  cxx=x86_64-linux-gnu-g++
}

# native: the machine's own tools; sets the same names.
native() {
  how="native: $machine"
  have cargo rustc cargo
  have cc gcc libc6-dev
  have c++ g++
  cargo=cargo
  target=
  run=()
  cc=cc
  cxx=c++
}

# native_module NAME MODULE ARCHIVE: compiles a module as the kit's compiler was told to compile that of NAME, whose words rust/compare/native-archive kept.
native_module() {
  local words word before=
  words=()
  find_kit
  while read -r word; do
    case $before:$word in
    *:--sysroot=*) word=--sysroot=$toolchain ;;
    ir:*.bc) word=$2 ;;
    -o:*) word=$3.o ;;
    esac
    words+=("$word")
    before=$word
  done <"$root/target/native/$1.words"
  "$toolchain/bin/clang" "${words[@]}" 2>/dev/null
  rm -f "$3"
  ar rcs "$3" "$3.o"
  rm "$3.o"
}

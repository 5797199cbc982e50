# Sourced by the scripts here: the original crate's files in target/original, unchanged, with the root that declares them.

original_needed='set MLX9064X_SRC to the folder of the unpacked crates.io package mlx9064x 0.2.1, or to its src folder'
if [ -z "${MLX9064X_SRC:-}" ]; then
  say "nothing is compared: $original_needed"
  exit 2
fi
source_folder=$MLX9064X_SRC
[ -d "$source_folder/src/mlx90640" ] && source_folder=$source_folder/src
if [ ! -f "$source_folder/mlx90640/eeprom.rs" ]; then
  say "nothing is compared: MLX9064X_SRC is $MLX9064X_SRC, and mlx90640/eeprom.rs is not there; $original_needed"
  exit 2
fi

place() { cmp -s "$1" "$2" || cp "$1" "$2"; }

original() {
  local to=$root/rust/compare/target/original/src
  mkdir -p "$to/mlx90640"
  local file
  for file in common.rs error.rs register.rs util.rs mlx90640/address.rs mlx90640/eeprom.rs mlx90640/mod.rs; do
    place "$source_folder/$file" "$to/$file"
  done
  place "$root/rust/compare/original/lib.rs" "$to/lib.rs"
  # The text that a doc attribute includes; only documentation would show it.
  [ -f "$to/katex.html" ] || : >"$to/katex.html"
}

# build PROGRAM: builds it with the archive of MOFULEKA_ARCHIVE and sets program to its path.
build() {
  install_original
  original
  local words=(build --quiet --release --offline --bin "$1")
  local folder=release
  if [ -n "$target" ]; then
    words+=(--target "$target")
    folder=$target/release
  fi
  (cd "$root/rust/compare" && nice "$cargo" "${words[@]}") >&2 || exit 1
  program=${CARGO_TARGET_DIR:-$root/rust/compare/target}/$folder/$1
}

#!/bin/sh
# cargo.sh COMMAND WORDS...: runs this command of cargo's on the command line tool. Before, it sees that the proved
# library is there and is made of the crates as they are now, and where cargo finds the crates that the tool uses: in
# Debian's packages where they are installed, in the usual registry elsewhere.
# Exit status: cargo's; 2 where something is missing, which is named.
set -u
if [ $# -eq 0 ]; then
  echo "usage: cargo.sh COMMAND WORDS..." >&2
  exit 2
fi
command=$1
shift
root=$(CDPATH='' cd -- "$(dirname -- "$0")/../.." && pwd) || exit 2
cd -- "$root" || exit 2
library=target/staticlib/libcapi.a
packages=/usr/share/cargo/registry
crates=$root/target/crates

command -v cargo >/dev/null 2>&1 \
  || { echo "cli: Rust is missing: there is no command 'cargo' on the PATH" >&2; exit 2; }

# The library, if it is missing or older than a file that it is made of.
if [ ! -f "$library" ] \
  || find crates crates.txt -path 'crates/*/out' -prune -o -type f -newer "$library" -print | grep -q .; then
  command -v rt >/dev/null 2>&1 || {
    echo "cli: $library is missing or older than the crates, and" \
      "the Rattle toolchain that makes it is missing: there is no command 'rt' on the PATH" >&2
    exit 2
  }
  (cd crates/capi && exec rt lib) && mkdir -p target/staticlib && cp crates/capi/out/libcapi.a "$library" || exit 2
fi

missing=
for crate in clap-4.0 indicatif-0.17 memmap2-0.5 rayon-1.6; do
  ls -d "$packages/$crate".* >/dev/null 2>&1 || missing="$missing librust-${crate%-*}-dev"
done

export CARGO_TARGET_DIR="${CARGO_TARGET_DIR:-$root/target/cargo}"
manifest=rust/cli/Cargo.toml
if [ -n "$missing" ]; then
  echo "cli: packages of Debian's are missing, so that crates are looked for in the usual registry" >&2
  if ! cargo fetch --quiet --manifest-path "$manifest"; then
    echo "cli: the crates are not in reach, and these packages are missing:$missing" >&2
    echo "cli: apt-get install$missing" >&2
    exit 2
  fi
  exec cargo "$command" --manifest-path "$manifest" "$@"
fi

# Debian knows no checksum of many crates and says so where it should stand, which no lock file for others can hold.
# So cargo gets the crates as they are installed, without checksums. They are copied, since the gate takes no links.
rm -rf "$crates"
for crate in "$packages"/*/; do
  name=$(basename "$crate")
  mkdir -p "$crates/$name" && cp -RL "$crate"* "$crates/$name/" \
    && echo '{"files":{}}' > "$crates/$name/.cargo-checksum.json" || exit 2
done
exec cargo "$command" --offline --manifest-path "$manifest" \
  --config 'source.crates-io.replace-with="debian"' --config "source.debian.directory=\"$crates\"" "$@"

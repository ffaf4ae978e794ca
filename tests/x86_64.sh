# For the scripts that build or link code for x86-64, sourced by them from the repository's folder: how such programs are built and run on this machine.
# Sets `cc` (the C compiler) and `run` (what runs them, nothing on x86-64).

stop() {
  echo "$1" >&2
  echo "0 passed, 1 failed"
  exit 1
}

# from_debian FILE PACKAGE..: installs packages, those of x86-64 too, unless the file is there.
from_debian() {
  [ ! -e "$1" ] || return 0
  said=$({ dpkg --add-architecture amd64 && apt-get update && apt-get install -y --no-install-recommends "${@:2}"; } 2>&1) || stop "$said"
}

cc=gcc
run=()
if [ "$(uname -m)" != x86_64 ]; then
  cc=x86_64-linux-gnu-gcc
  run=(qemu-x86_64)
  from_debian "/usr/bin/$cc" gcc-x86-64-linux-gnu libc6-dev-amd64-cross
  from_debian "/usr/bin/${run[0]}" qemu-user
  from_debian /lib64/ld-linux-x86-64.so.2 libc6:amd64
fi

# up_to_date FILE NAME COMMAND..: has the command build the file if it is missing or older than a source of the crates.
up_to_date() {
  [ ! -f "$1" ] || [ -n "$(find crates.txt crates/*/{src,specs,proofs} -newer "$1" -print -quit)" ] || return 0
  command -v rt >/dev/null || stop "the Rattle kit is needed to build the $2, and its program rt is not on the path"
  began=$(mktemp)
  said=$("${@:3}" 2>&1) || { rm -f "$began" && stop "$said"; }
  [ -f "$1" ] || { rm -f "$began" && stop "the $2 was to be built, and there is no $1"; }
  # As new as the sources that were read.
  touch -r "$began" "$1"
  rm -f "$began"
}

# library_of CRATE: proves and builds a static library.
library_of() { (cd "crates/$1" && rt lib); }

# program_of CRATE: proves and builds a program. rt run then runs it, on nothing; whether it was built is told by what rt says and not by the status, which is the program's.
program_of() {
  local told
  told=$(cd "crates/$1" && rt run 2>&1 >/dev/null </dev/null) || :
  grep -q "^rt: running out/$1;" <<<"$told" || { echo "$told" && return 1; }
}

# Brings the static library up to date: sets `library`.
library_for_x86_64() {
  library=crates/c_api/out/libc_api.a
  up_to_date "$library" "static library" library_of c_api
}

# program_for_x86_64 CRATE NAME: brings a program up to date: sets `program`.
program_for_x86_64() {
  program=crates/$1/out/$1
  up_to_date "$program" "$2" program_of "$1"
}

# Brings the listing programs up to date: sets `settle`, and `settle_captioned`, which takes captions.
settle_for_x86_64() {
  program_for_x86_64 settle "listing program"
  settle=$program
  program_for_x86_64 settle_captioned "listing program with captions"
  settle_captioned=$program
}

# Says how Rust is built for x86-64: sets `cargo` and `target`. On another processor a Rust without the std for x86-64 gives way to Debian's.
rust_for_x86_64() {
  cargo=cargo
  target=x86_64-unknown-linux-gnu
  if [ "$(uname -m)" != x86_64 ]; then
    export CARGO_TARGET_X86_64_UNKNOWN_LINUX_GNU_LINKER=$cc
    export CARGO_TARGET_X86_64_UNKNOWN_LINUX_GNU_RUNNER=${run[*]}
    if [ ! -d "$(rustc --print sysroot 2>/dev/null)/lib/rustlib/$target/lib" ]; then
      from_debian "/usr/lib/rustlib/$target/lib" cargo rustc libstd-rust-dev:amd64
      cargo=/usr/bin/cargo
      export RUSTC=/usr/bin/rustc RUSTDOC=/usr/bin/rustdoc
    fi
  fi
  command -v "$cargo" >/dev/null || stop "cargo is needed, and it is not on the path"
}

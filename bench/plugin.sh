# For the scripts that run a program in QEMU's emulator with a plug-in, sourced by them. Sets `emulator`, which is installed if it is missing, and `built`.
bench=$(cd "$(dirname "${BASH_SOURCE[0]}")" && pwd)
command -v qemu-x86_64 >/dev/null || { apt-get update && apt-get install -y qemu-user; } >&2
emulator=$(command -v qemu-x86_64)

# built NAME: the plug-in of that name, built where it is missing or older than its source.
built() {
  [[ $("$emulator" --version) =~ version\ ([0-9]+) ]]
  local interface=$((BASH_REMATCH[1] < 9 ? 1 : 2))
  local made=$bench/target/$1-$interface.so
  if [ ! "$made" -nt "$bench/$1.c" ]; then
    mkdir -p "$bench/target"
    gcc -shared -fPIC -O2 -DINTERFACE=$interface "$bench/$1.c" -o "$made.$$"
    mv "$made.$$" "$made"
  fi
  echo "$made"
}

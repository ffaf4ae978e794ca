# For the scripts that count instructions, sourced by them from the repository's folder: brings our program and the baseline up to date, and says how
# they are run and counted. Sets `home` (that folder), `links` (a folder that is removed at the end), `ours` and `baseline` (the programs).
home=$PWD
. tests/x86_64.sh
program_for_x86_64 bench_operations "program whose instructions are counted"
rust_for_x86_64
"$cargo" build --quiet --release --target "$target" --manifest-path bench/baseline/Cargo.toml

# A program's path stands on its stack, and moves the arrays there by as much: paths of one length everywhere.
links=$(mktemp -d /tmp/bench.XXXXXX)
trap 'rm -rf "$links"' EXIT
ln -s "$home/$program" "$home/bench/baseline/target/$target/release/baseline" "$links"
ln -s "$(dirname "$(rt doc)")/toolchain/lib" "$links"
ours=$links/bench_operations
baseline=$links/baseline
export BENCH_LIB=$links/lib

# said PROGRAM [TIMES OPERATION]: what it prints, in the current folder.
said() { "$home/bench/insns" "$@" 2>/dev/null; }

# said_of KEY OPERATION: our number on that line, after one operation.
said_of() { said "$ours" 1 "$2" | sed -n "s/^$1=//p"; }

# insns PROGRAM TIMES OPERATION: the instructions of so many operations, in the current folder.
insns() { "$home/bench/insns" "$@" 2>&1 >/dev/null | sed -n '$s/^insns=//p'; }

# one PROGRAM OPERATION: those of one operation: a tenth of the difference between 11 and 1.
one() { echo $((($(insns "$1" 11 "$2") - $(insns "$1" 1 "$2")) / 10)); }

# ratio A B: A as a multiple of B, rounded to two digits.
ratio() { local hundredths=$((($1 * 100 + $2 / 2) / $2)) && printf '%d.%02d' $((hundredths / 100)) $((hundredths % 100)); }

# Groups the digits of the numbers above 999.
grouped() { sed -E ':again; s/\b([0-9]+)([0-9]{3})\b/\1,\2/; t again'; }

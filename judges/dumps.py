"""dumps.py FOLDER: gives the dumps in the folders of a folder to programs of others, and writes what these make of them beside them, in the lines that the library reads.

Each folder has a sheet.txt and a dump.vcd. GTKWave's converters take the dump there and back: vcd2fst and fst2vcd, vcd2lxt2 and lxt2vcd, vcd2vzt and vzt2vcd. Icarus Verilog gets a module that gives its
registers the same values at the same times, and writes a dump of that. Of each program's dump only the following is changed:

- `$date`, `$version` and `$comment` are left out, up to their `$end`; so is the word `$dumpvars` and the `$end` after the signs at #0;
- `$timescale` becomes one line, with a space between number and unit; Icarus Verilog says `reg` where a wire is asked for;
- signals come in sheet order, with the IDs of that order: two of the formats sort them by name;
- signs at one time come in sheet order.

A dump without a time after #0 goes by way of FST alone: the other two converters give up on it.

No sign and no time is added, changed or left out. What GTKWave gives must then be the library's dump, byte for byte; if it is not, or if anything else is met, the program stops. The folder `recorded` has a dump that the library did not
write: there signs that are said again and times without a sign may be gone.
"""
import pathlib
import re
import subprocess
import sys

FORMATS = {"fst": ("vcd2fst", "fst2vcd"), "lxt2": ("vcd2lxt2", "lxt2vcd"), "vzt": ("vcd2vzt", "vzt2vcd")}
LEFT_OUT = ("$date", "$version", "$comment")


def run(*command):
    """What a program prints."""
    done = subprocess.run([str(word) for word in command], capture_output=True, text=True)
    if done.returncode != 0:
        sys.exit(f"{command} ended with status {done.returncode}: {done.stdout}{done.stderr}")
    return done.stdout


def section(words):
    """The words up to the next $end, which is taken too."""
    return list(iter(lambda: next(words), "$end"))


def in_our_lines(text, names):
    """A program's dump in the lines that the library reads."""
    words = iter(text.split())
    head, ours, times = [], {}, []
    for word in words:
        if word in LEFT_OUT:
            section(words)
        elif word == "$timescale":
            number, unit = re.fullmatch(r"(\d+)(\w+)", "".join(section(words))).groups()
            head.append(f"$timescale {number} {unit} $end")
        elif word in ("$scope", "$upscope", "$enddefinitions"):
            head.append(" ".join([word, *section(words), "$end"]))
        elif word == "$var":
            kind, size, sign, name = section(words)
            assert kind in ("wire", "reg") and size == "1" and name in names, (kind, size, name)
            ours[sign] = names.index(name)
        elif word.startswith("#"):
            times.append((word, []))
        elif word == "$end":
            assert len(times) == 1, "only the signs at #0 are followed by $end"
        elif word != "$dumpvars":
            times[-1][1].append((ours[word[1:]], word[0]))
    assert sorted(ours.values()) == list(range(len(names)))
    head[2:2] = [f"$var wire 1 {chr(33 + number)} {name} $end" for number, name in enumerate(names)]
    lines = [line for time, signs in times for line in (time, *(f"{sign}{chr(33 + number)}" for number, sign in sorted(signs)))]
    return "".join(f"{line}\n" for line in head + lines)


def by_gtkwave(folder, form):
    """The dump there and back."""
    there, (to_form, to_dump) = folder / f"dump.{form}", FORMATS[form]
    run(to_form, folder / "dump.vcd", there)
    back = run(to_dump, there)
    there.unlink()
    return back


def module(dump, names, to):
    """A module whose registers have the dump's signs, each from its time on."""
    lines = ["`timescale 1s/1s", "module sheet;", *(f"reg {name};" for name in names), "initial begin"]
    now, started = 0, False
    for line in dump.split("#0\n", 1)[1].splitlines():
        if line.startswith("#"):
            if not started:
                lines += [f'$dumpfile("{to}");', "$dumpvars(0, sheet);"]
                started = True
            lines.append(f"#{int(line[1:]) - now};")
            now = int(line[1:])
        else:
            lines.append(f"{names[ord(line[1]) - 33]} = 1'b{line[0]};")
    if not started:
        lines += [f'$dumpfile("{to}");', "$dumpvars(0, sheet);"]
    return "\n".join([*lines, "end", "endmodule", ""])


def by_icarus(folder, names):
    """The dump that Icarus Verilog writes of the same signs."""
    source, program, to = folder / "sheet.v", folder / "sheet.vvp", folder / "icarus.out"
    source.write_text(module((folder / "dump.vcd").read_text(), names, to))
    run("iverilog", "-o", program, source)
    run("vvp", "-n", program)
    text = to.read_text()
    for file in (source, program, to):
        file.unlink()
    return text


def main():
    folders = sorted(pathlib.Path(sys.argv[1]).iterdir())
    by_one_way = 0
    for folder in folders:
        names = re.findall(r"^signal=(.*)$", (folder / "sheet.txt").read_text(), re.M)
        dump = (folder / "dump.vcd").read_text()
        one_time = dump.count("\n#") == 1
        by_one_way += one_time
        for form in ("fst",) if one_time else FORMATS:
            back = in_our_lines(by_gtkwave(folder, form), names)
            if back != dump and folder.name != "recorded":
                sys.exit(f"{folder}: by way of {form} the dump is another")
            (folder / f"{form}.vcd").write_text(back)
        (folder / "icarus.vcd").write_text(in_our_lines(by_icarus(folder, names), names))
    print(f"{len(folders)} dumps there and back by way of {', '.join(FORMATS)}, {by_one_way} of them by fst alone; each written again by Icarus Verilog", file=sys.stderr)


main()

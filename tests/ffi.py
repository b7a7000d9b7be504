#!/usr/bin/env -S python3 -B
"""Tries the library as its callers have it: installs it (ffi/install), also as a shared one; builds the programs in C,
and the crate in Rust with its tests and its programs, and compares what the programs say and write with what they are
to; looks whether what passes at once is inlined in it (inlined.py); makes calls on functions in right and in wrong orders
(tests/c/functions.c); calls it with each request for memory refused (memory.c), from several threads over one module
(threads.c), and for ten seconds over modules that are changed at random (random.c, from a seed that it prints;
`tests/ffi.py SEED SECONDS` has both by hand)."""
import ctypes
import difflib
import filecmp
import os
import re
import shutil
import subprocess
import sys
import tempfile
import time
from pathlib import Path

import inlined
from harness import ROOT, SOURCES, Tally, need
from module_runs import DROPS, EMPTY, NOT_COVERED, SUM, VECTOR, cases
from wasm import EXPORTS, FUNCTIONS, GLOBALS, IMPORTS, MEMORIES, TABLES, TYPES, module, of_bodies

FFI = ROOT / "ffi"
ONE_TYPE, ONE_IMPORT, ADDS = "01 60 00 00", "01 01 61 01 62 00 00", "00 6a 0b"
MODULES = {
    "sum": SUM,
    "text": b"this is no module",
    "nothing": b"",
    "cut": SUM[:60],
    "refused": of_bodies(ADDS),
    "imported": module((TYPES, ONE_TYPE), (IMPORTS, ONE_IMPORT), (FUNCTIONS, "02 00 00"), bodies=[EMPTY, DROPS]),
    "several": of_bodies(DROPS, VECTOR, ADDS),
    "vector": NOT_COVERED,
    "global": module((GLOBALS, "01 7f 00 42 00 0b")),
    "shared": module((TYPES, ONE_TYPE), (FUNCTIONS, "01 00"), (MEMORIES, "01 02 01"), bodies=[EMPTY]),
    "unread": of_bodies("00 ff 0b"),
    "tables": module((TABLES, "65" + " 70 00 00" * 101)),
}
WORDS = """sum.wasm refused.wasm imported.wasm several.wasm vector.wasm global.wasm shared.wasm unread.wasm tables.wasm text.wasm
    nothing.wasm cut.wasm missing.wasm -f 0 imported.wasm -f 1 imported.wasm -f 2 imported.wasm -f 3 imported.wasm
    -f 0 shared.wasm text.wasm"""
SAID = """\
tansyattic 0.2.0
sum.wasm: 1 accepted, 0 refused, 0 not covered
refused.wasm: func 0: type mismatch: expected i32 but nothing on stack (at offset 0x17)
refused.wasm: 0 accepted, 1 refused, 0 not covered
imported.wasm: func 2: type mismatch: expected a type but nothing on stack (at offset 0x24)
imported.wasm: 1 accepted, 1 refused, 0 not covered
several.wasm: func 0: type mismatch: expected a type but nothing on stack (at offset 0x19)
several.wasm: func 1: a vector operator (at offset 0x1d)
several.wasm: func 2: type mismatch: expected i32 but nothing on stack (at offset 0x23)
several.wasm: 0 accepted, 2 refused, 1 not covered
vector.wasm: func 0: a vector operator (at offset 0x18)
vector.wasm: 1 accepted, 0 refused, 1 not covered
global.wasm: global init 0: type mismatch: expected i32, found i64 (at offset 0xf)
global.wasm: 0 accepted, 1 refused, 0 not covered
shared.wasm: module: shared memory must have maximum size (at offset 0x15)
unread.wasm: func 0: illegal opcode: 0xff (at offset 0x17)
unread.wasm: 0 accepted, 1 refused, 0 not covered
tables.wasm: module: tables count exceeds limit of 100 (at offset 0x138)
text.wasm: module: magic header not detected (at offset 0x0)
nothing.wasm: module: unexpected end (at offset 0x0)
cut.wasm: module: unexpected end (at offset 0x1f)
missing.wasm: can't be read
imported.wasm: func 0: the module has no body for this function (at offset 0x0)
imported.wasm: func 1: accepted
imported.wasm: func 2: type mismatch: expected a type but nothing on stack (at offset 0x24)
imported.wasm: func 3: the module has no body for this function (at offset 0x0)
shared.wasm: module: shared memory must have maximum size (at offset 0x15)
text.wasm: module: magic header not detected (at offset 0x0)
"""
# Words, and the status that a program ends with.
STATUSES = [(WORDS, 8), ("tables.wasm unread.wasm", 7), ("-f 3 imported.wasm", 5), ("vector.wasm sum.wasm", 4), ("several.wasm", 1),
            ("unread.wasm refused.wasm", 2), ("-f", 8), ("-f x", 8), ("-f -1", 8), ("-f 4294967296", 8)]

# An imported function, one that calls it with nothing on the stack, calls the next with an i64, and calls it in a block and
# in dead code, and one [i64] -> []; and what comes of that if a function is called before each call.
CALLS = module((TYPES, "02 60 00 00 60 01 7e 00"), (IMPORTS, ONE_IMPORT), (FUNCTIONS, "02 00 01"),
               bodies=["00 10 00 42 05 10 02 41 03 02 40 10 00 0b 1a 00 10 00 0b", EMPTY])
COUNTED = module(
    (TYPES, "07 60 00 00 60 01 7e 00 60 01 7f 01 7f 60 01 7e 01 7e 60 01 7d 01 7d 60 01 7c 01 7c 60 00 00"),
    (IMPORTS, ONE_IMPORT), (FUNCTIONS, "07 00 01 02 03 04 05 06"), (GLOBALS, "01 7f 01 41 00 0b"),
    (EXPORTS, "01 05 63 61 6c 6c 73 03 00"),
    bodies=["00 10 07 10 00 42 05 10 04 10 02 41 03 02 40 10 07 10 00 0b 1a 00 10 07 10 00 0b", EMPTY,
            *["00 23 00 41 01 6a 24 00 20 00 0b"] * 4, "00 23 00 41 01 6a 24 00 0b"])
# The function f of `a * (b + 2) - 3`, a and b being integers.
COMPILED = module((TYPES, "01 60 04 7f 7f 7c 7c 01 7c"), (FUNCTIONS, "01 00"), (EXPORTS, "01 01 66 00 00"),
                  bodies=["00 20 00 20 01 41 02 6a 6c 41 03 6b b7 0b"])
MODULES |= {"calls": CALLS, "calls-wanted": COUNTED, "compiled-wanted": COMPILED}
# What node makes of modules, and of the function f of one.
VALIDATES = """for (const name of process.argv.slice(1))
    if (!WebAssembly.validate(require("fs").readFileSync(name))) throw new Error(`node takes ${name} for invalid`);"""
COMPUTES = """const bytes = require("fs").readFileSync(process.argv[1]);
console.log(new WebAssembly.Instance(new WebAssembly.Module(bytes)).exports.f(0, 0, 2, 1));"""


class Failed(Exception):
    """What isn't as it is to be."""


def call(*words, status=0, **how):
    """Runs a command, which has to end with this status; returns what it prints. With no status it has to fail, and what it
    says of that is returned too."""
    ran = subprocess.run([str(it) for it in words], capture_output=True, text=True, **how)
    if ran.returncode != status and (status is not None or ran.returncode == 0):
        raise Failed(f"{' '.join(map(str, words))} ends with status {ran.returncode}: {ran.stdout}{ran.stderr}")
    return ran.stdout + ("" if status == ran.returncode else ran.stderr)


def same(what, found, wanted):
    """Asks that a text, or bytes, are what is wanted."""
    if found != wanted:
        texts = [it if isinstance(it, str) else it.hex(" ") for it in (wanted, found)]
        lines = difflib.unified_diff(*(it.splitlines() for it in texts), "wanted", "found", lineterm="")
        raise Failed("\n".join([f"{what} isn't what is wanted", *lines]))


def tell(said):
    print(f"ffi: {said.strip()}", flush=True)


def compile_c(to, *words):
    call("gcc", "-std=c11", "-O2", "-Wall", "-Wextra", "-Werror", "-o", to, *words)
    return to


def compile_test(room, name, *words):
    """Compiles a source of tests/c, with memory of its own or that of ffi."""
    return compile_c(room / name, f"-I{FFI}", SOURCES / f"{name}.c", *words)


def compare(language, program, room):
    """Asks a program in a language for what it says of modules, and how it ends."""
    for words, status in STATUSES:
        printed = call(program, *words.split(), status=status, cwd=room)
        if words == WORDS:
            same(f"what the program in {language} says", printed, SAID)
    tell(f"the program in {language} says what it is to say")


def install(room, library):
    """Installs the library and a program, from a folder elsewhere; returns how C programs are built with it."""
    (room / "elsewhere").mkdir()
    call(FFI / "install", "../prefix", library, cwd=room / "elsewhere", env={**os.environ, "CC": "gcc"})
    prefix = room / "prefix"
    call(prefix / "bin/wasmcheck", "-q", room / "sum.wasm")
    if not shutil.which("pkg-config"):
        return [f"-I{prefix}/include", f"-L{prefix}/lib", "-ltansyattic"]
    where = {**os.environ, "PKG_CONFIG_PATH": f"{prefix}/lib/pkgconfig"}
    return call("pkg-config", "--cflags", "--libs", "tansyattic", env=where).split()


def try_header():
    """The header is read by each standard of C, and by C++."""
    strict = "-Wall -Wextra -Wpedantic -Wconversion -Wcast-qual -Werror -fsyntax-only".split()
    for standard in ("c99", "c11", "c17"):
        call("gcc", f"-std={standard}", *strict, "-x", "c", FFI / "tansyattic.h")
    if shutil.which("g++"):
        call("g++", "-std=c++17", "-Wall", "-Wextra", "-Wpedantic", "-Werror", "-fsyntax-only", "-x", "c++", FFI / "tansyattic.h")


def symbols(library):
    return {line.split()[-1] for line in call("nm", "-D", "--defined-only", library).splitlines()}


def try_shared(room, library, linked):
    """The archive stands in a shared library, with no relocation in its text, and none of its symbols is one of that. The one
    that is installed has the header's calls as symbols and no others; a program in C is linked with it, and Python loads it."""
    options = ["-fPIC", "-shared", "-Wl,-z,text", "-Wl,-z,defs", "-Wl,--exclude-libs,libtansyattic.a", "-fvisibility=hidden"]
    own = compile_c(room / "libshared.so", *options, "-Dmain=tansyattic_main", FFI / "validate.c", *linked)
    same("the list of symbols", str(symbols(own)), str(set()))
    call(FFI / "install", "--shared", room / "shared", library, env={**os.environ, "CC": "gcc"})
    installed = room / "shared/lib/libtansyattic.so"
    declared = {*re.findall(r"(tansyattic_[a-z_]+)\(", (FFI / "tansyattic.h").read_text())} - {"tansyattic_bytes", "tansyattic_text"}
    same("the list of calls", "\n".join(sorted(symbols(installed))), "\n".join(sorted(declared)))
    compare("C with the shared library", compile_c(room / "with_shared", FFI / "validate.c", f"-I{room}/shared/include",
                                                   installed, f"-Wl,-rpath,{installed.parent}"), room)
    loaded, verdict = ctypes.CDLL(str(installed)), ctypes.create_string_buffer(256)
    for length, status in ((len(SUM), 0), (60, 2)):
        size = ctypes.c_size_t(length)
        if loaded.tansyattic_validate(SUM, size, 0xFFFFFFFF, None, ctypes.c_size_t(0), verdict) != status:
            raise Failed("the shared library answers something else from Python")


def try_crate(room):
    """The crate in Rust: its tests, its lints and pages, and its programs; returns the folder of these."""
    where = {**os.environ, "CARGO_TARGET_DIR": f"{room}/target", "TANSYATTIC_LIB_DIR": f"{room}/prefix/lib"}

    def cargo(*words, **more):
        return call("cargo", "--offline", "--locked", *words, cwd=FFI / "rust", env={**where, **more})

    passed = re.findall(r"^test result: ok\. (\d+) passed", cargo("test"), re.M)
    tell(f"the crate's tests: {'+'.join(passed)} passed")
    cargo("test", "--no-default-features", "--no-run")
    for words in (["clippy", "--all-targets", "--", "-D", "warnings"], ["fmt", "--check"]):
        if subprocess.run(["cargo", words[0], "--version"], capture_output=True).returncode == 0:
            cargo(*words)
    cargo("doc", RUSTDOCFLAGS="-D warnings")
    cargo("build", "--release", "--examples")
    programs = room / "target/release/examples"
    compare("Rust", programs / "validate", room)
    return programs


def engine(script, *words):
    """What node says, by a script, of these words; nothing where it isn't there."""
    return call("node", "-e", script, *words) if shutil.which("node") else ""


def try_generator(room, linked):
    """The generator writes different modules, and the same ones from the same seed, which all are valid."""
    generate = compile_c(room / "generate", FFI / "examples/generate.c", *linked)
    for folder in (room / "generated", room / "again"):
        folder.mkdir()
        same("what the generator says", call(generate, 7, 50, folder),
             "50 modules of 40 operators and what closes their frames, 50 valid\n")
    files = sorted((room / "generated").iterdir())
    if any(not filecmp.cmp(it, room / "again" / it.name, shallow=False) for it in files):
        raise Failed("the generator writes other modules from the same seed")
    if len({it.read_bytes() for it in files}) != 50:
        raise Failed("generated modules are equal")
    call(room / "in_c", *files)
    engine(VALIDATES, *files)
    return files


def try_instrumenter(room, instrument, generated):
    written = room / "instrumented.wasm"
    same("what the instrumenter says", call(instrument, room / "calls.wasm", written), "4 calls\n")
    same(written.name, written.read_bytes(), COUNTED)
    engine(VALIDATES, written)
    for file in (it for it in generated if len(it.stem) == 1):
        call(instrument, file, written)
        engine(VALIDATES, written)
    same("what the instrumenter says", call(instrument, room / "refused.wasm", room / "unwritten.wasm", status=None),
         "instrument: type mismatch: expected i32 but nothing on stack (at offset 0x17)\n")


def try_compiler(room, compiler):
    written = room / "compiled.wasm"
    same("what the compiler says", call(compiler, "a * (b + 2) - 3", written), "48 bytes\n")
    same(written.name, written.read_bytes(), COMPILED)
    for text, said in (("a * (b + 2) - x", "column 13: f64.sub: type mismatch: expected f64, found i32"),
                       ("a +", "column 4: no value")):
        same("what the compiler says", call(compiler, text, room / "unwritten.wasm", status=None), f"{said}\n")
    call(compiler, "x * 2.5 + y", written)
    if engine(COMPUTES, written) not in ("", "6\n"):
        raise Failed("node finds another value")
    if (room / "unwritten.wasm").exists():
        raise Failed("a program that fails writes a module")


def try_threads(room, library, files):
    """Also under the thread sanitizer, where gcc has it. That sees nothing inside the library, so it takes the last use of a
    module and the end of it for a race."""
    tell(call(compile_test(room, "threads", "-pthread", library), *files))
    try:
        program = compile_test(room, "threads", "-g", "-pthread", "-fsanitize=thread", library)
    except Failed:
        return
    (room / "suppressions").write_text("race:rattle_dealloc\n")
    how = {"env": {**os.environ, "TSAN_OPTIONS": f"suppressions={room}/suppressions"}}
    tell("under the thread sanitizer: " + call(program, *files, **how))


def try_all(room, seed, seconds):
    library = call(FFI / "build").strip()
    tally = Tally()
    inlined.look_in_library(tally, library)
    tell(f"{tally.count} functions looked for in the library, {tally.wrong} not inlined")
    if tally.wrong:
        raise Failed("what passes at once isn't inlined in the library")
    for name, bytes in MODULES.items():
        (room / f"{name}.wasm").write_bytes(bytes)
    linked = install(room, library)
    try_header()
    compare("C", compile_c(room / "in_c", FFI / "validate.c", *linked), room)
    try_shared(room, library, linked)
    tell(call(compile_test(room, "functions", FFI / "memory.c", library)))
    programs = try_crate(room)
    generated = try_generator(room, linked)
    try_instrumenter(room, programs / "instrument", generated)
    try_compiler(room, programs / "compile")
    tell("the generator, the instrumenter and the compiler write what they are to write")
    few = [*sorted(room.glob("*.wasm")), *(it for it in generated if len(it.stem) == 1)]
    tell(call(compile_test(room, "memory", library), *few))
    # Beside the modules above, those that wasmcheck is tried on, and those that were generated.
    for number, case in enumerate(cases()):
        (room / f"case-{number}.wasm").write_bytes(case.bytes)
    files = [*sorted(room.glob("*.wasm")), *generated]
    try_threads(room, library, files)
    tell(f"changes modules at random, from the seed {seed}")
    tell(call(compile_test(room, "random", library), seed, seconds, *files))


def main(words):
    need("gcc", "ar", "nm", "cargo", "rustc")
    seed, seconds = words[0] if words else int(time.time()), words[1] if words[1:] else 10
    try:
        with tempfile.TemporaryDirectory() as room:
            try_all(Path(room), seed, seconds)
    except Failed as why:
        tell(str(why))
        return 1
    return 0


if __name__ == "__main__":
    sys.exit(main(sys.argv[1:]))

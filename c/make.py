#!/usr/bin/env python3
"""make.py: proves the library for programs in C, C++, Rust and Python, builds it, and tests it.

    python3 c/make.py                   leaves libdstm.a, libdstm.so.1 and dstm.pc in c/out, and runs all tests
    python3 c/make.py --prefix FOLDER   and installs them, the headers, what CMake takes and man pages below that folder
    python3 c/make.py --quiet           says only what failed, what was skipped, and how many passed; and leaves out what
                                        another version of a tool may see otherwise: whether clippy has a warning, and
                                        what rustc's thread sanitizer says of a std that is not built with it
    python3 c/make.py --bench           and measures the library beside a mutex and beside gcc's transactional memory, by
                                        each method of its library
    python3 c/make.py --behind-rt-ci    takes the libraries that rt ci has just proved and left as they are
    python3 c/make.py --archive FILE    builds and tests with this archive of the exports, and proves nothing

A test whose tool is missing is skipped, and the tool is named. The last line is 'N passed, M failed, K skipped'."""
import argparse
import contextlib
import functools
import importlib.machinery
import importlib.util
import os
import re
import shutil
import subprocess
import sys
import tempfile
import time

sys.dont_write_bytecode = True

HERE = os.path.dirname(os.path.realpath(__file__))
ROOT = os.path.dirname(HERE)
OUT = f"{HERE}/out"
HEADER = f"{HERE}/include/dstm.h"
EXPORTS = f"{ROOT}/crates/dstm_c/src"
TESTS = ("first", "counter", "bank", "queue", "pool", "map", "ordered", "set", "alternatives", "nested", "counts")
TESTS += ("parts", "turn", "waits", "misuse", "refused")
# By which engines a test runs where it takes long; where none is named it runs by all of them.
BOTH = ("tl2", "polka")
# The tests that have threads.
THREADED = ("counter", "bank", "queue", "pool", "map", "ordered", "set", "turn", "waits")
# How a program may wait where it takes no futex, and what says so.
BELLS = {"with a condition variable": "-DDSTM_BELL_CONDVAR", "with no bell": "-DDSTM_NO_BELL"}
# What a test is built with besides.
LINKED = {"refused": ("-Wl,--wrap=malloc,--wrap=realloc,--wrap=free",)}
# A command that has not ended after so many seconds never will, however slow the machine.
LONG = 3600
# So long at most the proof of the exports takes behind rt ci, which has proved all below them, in seconds.
PROOF = 7200
WARNINGS = ("-Wall", "-Wextra", "-pedantic", "-Werror")
# What the archive may want of a program that it is linked with.
WANTED = {"free", "malloc", "realloc", "memcpy", "memmove", "memset"}
VERSION = re.search(r"#define DSTM_VERSION (\d+)", open(HEADER, encoding="utf-8").read())[1]
NUMBERS = (int(VERSION) // 10000, int(VERSION) // 100 % 100, int(VERSION) % 100)
PC = """prefix={prefix}
libdir=${{prefix}}/lib
includedir=${{prefix}}/include

Name: dstm
Description: A proved software transactional memory
Version: {version}
Cflags: -I${{includedir}}
Libs: -L${{libdir}} -ldstm
"""
# Which versions a program may ask CMake for: this one, and those before it of the same first number.
CMAKE_VERSION = """set(PACKAGE_VERSION {version})
if(PACKAGE_FIND_VERSION_MAJOR EQUAL {first} AND NOT PACKAGE_FIND_VERSION VERSION_GREATER PACKAGE_VERSION)
  set(PACKAGE_VERSION_COMPATIBLE TRUE)
  if(PACKAGE_FIND_VERSION VERSION_EQUAL PACKAGE_VERSION)
    set(PACKAGE_VERSION_EXACT TRUE)
  endif()
endif()
"""
CMAKE_PROGRAM = """cmake_minimum_required(VERSION 3.5)
project(counts C)
find_package(dstm {version} REQUIRED)
find_package(Threads REQUIRED)
foreach(by dstm shared)
  add_executable(by_${{by}} {source})
  target_link_libraries(by_${{by}} dstm::${{by}} Threads::Threads)
endforeach()
"""


class Failed(Exception):
    pass


class Missing(Exception):
    pass


def tool(name):
    found = shutil.which(name)
    if not found:
        raise Missing(name)
    return found


@functools.cache
def works(compiler, *how, by=()):
    """A compiler makes a program with a thread that runs here, by this one."""
    language = "c++" if compiler.endswith("++") else "c"
    trial = "#include <pthread.h>\n#include <stdlib.h>\nstatic void *f(void *it) { free(it); return 0; }\n"
    trial += "int main(void) { pthread_t t; return pthread_create(&t, 0, f, malloc(9)) || pthread_join(t, 0); }\n"
    with tempfile.TemporaryDirectory(prefix="dstm-c-") as room:
        words = [compiler, *how, "-x", language, "-", "-o", f"{room}/trial", "-lpthread"]
        try:
            call(words, input=trial, stdin=None)
            call([*by, f"{room}/trial"])
        except (Failed, OSError):
            return False
    return True


def call(words, **how):
    """Runs a command, and returns what it wrote; where it fails, that is the failure's text."""
    how = {"stdin": subprocess.DEVNULL, "timeout": LONG, **how}
    how = {"stdout": subprocess.PIPE, "stderr": subprocess.STDOUT, "text": True, **how}
    try:
        ran = subprocess.run([str(it) for it in words], **how)
    except subprocess.TimeoutExpired:
        raise Failed(f"{words[0]} had not ended after {how['timeout']} seconds") from None
    if ran.returncode:
        raise Failed(f"{' '.join(map(str, words))}\nended with status {ran.returncode}:\n{(ran.stdout or '')[-3000:]}")
    return ran.stdout or ""


class Steps:
    def __init__(self, quiet):
        self.quiet, self.passed, self.failed, self.skipped = quiet, 0, 0, 0

    def step(self, name, does):
        """Does one step, and returns whether it passed."""
        began = time.time()
        try:
            said = does()
        except Missing as tool:
            self.skipped += 1
            print(f"c: {name}: skipped, since there is no {tool}", flush=True)
            return False
        except Failed as why:
            self.failed += 1
            print(f"c: {name}: FAILED: {why}", flush=True)
            return False
        self.passed += 1
        if not self.quiet:
            print(f"c: {name}: passed ({time.time() - began:.1f} s){f': {said}' if said else ''}", flush=True)
        return True


@contextlib.contextmanager
def left_by_rt_ci():
    """Marks the libraries below the exports as built, for the time of one command. rt ci leaves them all of one run, and
    without that mark, so that any other command would prove them again."""
    loader = importlib.machinery.SourceFileLoader("rtlib", f"{kit()}/bin/rtlib.py")
    spec = importlib.util.spec_from_loader("rtlib", loader)
    rtlib = importlib.util.module_from_spec(spec)
    sys.modules["rtlib"] = rtlib
    loader.exec_module(rtlib)
    marked = []
    try:
        below = rtlib.Crate(f"{ROOT}/crates/dstm_c", ROOT, {}).below()
        for crate in below:
            if os.path.isdir(crate.rlib) and not crate.is_built():
                marked.append(f"{crate.folder}/out/rlib/stamp")
                with open(marked[-1], "w", encoding="utf-8") as it:
                    it.write(crate.stamp())
        for crate in below:
            if not crate.is_built():
                raise Missing(f"library {crate.name} of rt ci")
        yield
    finally:
        for it in marked:
            with contextlib.suppress(FileNotFoundError):
                os.remove(it)


def prove(behind_rt_ci):
    """Proves the exports and what they stand on, and returns the archive. Behind rt ci, which has just proved them, what
    is wrong with the kit alone is no failure."""
    if not behind_rt_ci:
        return proved(call([tool("rt"), "lib"], cwd=f"{ROOT}/crates/dstm_c", timeout=None))
    words, cwd = [tool("rt"), "lib"], f"{ROOT}/crates/dstm_c"
    try:
        with left_by_rt_ci():
            ran = subprocess.run(words, cwd=cwd, timeout=PROOF, stdin=subprocess.DEVNULL, capture_output=True, text=True)
    except (Missing, Failed):
        raise
    except subprocess.TimeoutExpired:
        raise Failed(f"rt lib had not ended after {PROOF} seconds") from None
    except (Exception, SystemExit) as why:
        raise Missing(f"kit that takes what rt ci has left ({type(why).__name__}: {why})") from None
    if "logic=not-proved" not in ran.stdout and (ran.returncode or "logic=proved" not in ran.stdout):
        raise Missing(f"archive of rt lib ({(ran.stdout + ran.stderr).strip()[-200:]})")
    return proved(ran.stdout)


def proved(said):
    last = [line for line in said.splitlines() if line.startswith("logic=")]
    if not last or not last[-1].startswith("logic=proved"):
        raise Failed(f"rt lib proved nothing:\n{said[-1000:]}")
    return f"{ROOT}/crates/dstm_c/out/libdstm_c.a"


def given(file):
    """The archive that was handed over."""
    if not os.path.isfile(file):
        raise Failed(f"there is no archive {file}")
    return os.path.abspath(file)


def nothing_to_install():
    raise Failed("there is no libdstm.a to install")


def kit():
    """The folder of Rattle's kit."""
    found = os.path.dirname(os.path.dirname(os.path.realpath(tool("rt"))))
    if not os.path.isfile(f"{found}/c/liblibc_c.a"):
        raise Missing("rt with its folder c")
    return found


def archive(exports):
    """Makes libdstm.a of the exports and of the kit's calls to malloc, realloc and free."""
    whole = f"{OUT}/libdstm.a"
    if os.path.exists(whole):
        os.remove(whole)
    script = f"create {whole}\naddlib {exports}\naddlib {kit()}/c/liblibc_c.a\nsave\nend\n"
    for by in (shutil.which("ar"), f"{kit()}/toolchain/bin/llvm-ar"):
        if by and not os.path.isfile(whole):
            ran = subprocess.run(["llvm-ar", "-M"], executable=by, input=script, capture_output=True, text=True)
    if not os.path.isfile(whole):
        raise Failed(f"ar: {ran.stderr[-1000:]}")
    return f"{os.path.getsize(whole):,} bytes"


def shared():
    """Makes libdstm.so.1, which exports what the header declares."""
    names = ";".join(declared())
    with open(f"{OUT}/exports.map", "w", encoding="utf-8") as it:
        it.write(f"{{ global: {names}; local: *; }};\n")
    soname = f"libdstm.so.{NUMBERS[0]}"
    words = ["-shared", "-o", f"{OUT}/{soname}", f"-Wl,-soname,{soname}", "-Wl,-z,defs"]
    words += [f"-Wl,--version-script={OUT}/exports.map"]
    call([c_compiler(), *words, "-Wl,--whole-archive", f"{OUT}/libdstm.a", "-Wl,--no-whole-archive"])
    # A copy and no link, since rt ci takes no repository that has links.
    if os.path.lexists(f"{OUT}/libdstm.so"):
        os.remove(f"{OUT}/libdstm.so")
    shutil.copyfile(f"{OUT}/{soname}", f"{OUT}/libdstm.so")


def c_compiler():
    for name in (os.environ.get("CC", "cc"), "gcc", "clang"):
        if shutil.which(name) and works(name):
            return name
    raise Missing("C compiler")


def compiler_for(name):
    """Returns a compiler by its name, where it works here."""
    if not works(tool(name)):
        raise Missing(f"{name} that works")
    return name


def declared():
    """Returns the types of the arguments of each call that the header declares."""
    with open(HEADER, encoding="utf-8") as it:
        found = re.findall(r"^uint32_t (dstmc_\w+)\(([^)]*)\);", it.read(), re.M)
    types = lambda said: [] if said == "void" else [re.sub(r"\s*\w+$", "", arg.strip()) for arg in said.split(",")]
    return {name: types(said) for name, said in found}


def exported():
    """Returns the same of each call that the crate exports, as C passes them: an allocator it does not."""
    c = {"u32": "uint32_t", "u64": "uint64_t", "&mut u32": "uint32_t *", "&mut u64": "uint64_t *"}
    found = []
    for file in sorted(os.listdir(EXPORTS)):
        with open(f"{EXPORTS}/{file}", encoding="utf-8") as it:
            found += re.findall(r'#\[unsafe\(no_mangle\)\]\s*pub extern "C" fn (\w+)\(([^)]*)\) -> u32', it.read())
    made = {}
    for name, said in found:
        args = [[word.strip() for word in arg.split(":")] for arg in said.split(",") if arg.strip()]
        c_of = lambda arg, kind: f"dstm_{arg} *" if kind == "&mut Handle" else c.get(kind, kind)
        made[name] = [c_of(arg, kind) for arg, kind in args if kind != "Global"]
    return made


def same_calls():
    """The header declares what the crate exports, with the same arguments, and the archive has these symbols alone."""
    by_header, by_crate = declared(), exported()
    if by_header != by_crate:
        differ = sorted(it for it in {*by_header, *by_crate} if by_header.get(it) != by_crate.get(it))
        both = [f"{it}: the header has {by_header.get(it)}, the crate {by_crate.get(it)}" for it in differ]
        raise Failed("\n".join(both))
    said = call([tool("nm"), f"{OUT}/libdstm.a"])
    has = {it.split()[-1] for it in said.splitlines() if re.search(r" T (dstmc|rattle)_", it)}
    wants = {it.split()[-1] for it in said.splitlines() if re.match(r"\s+U ", it)} - has
    calls = {it for it in has if it.startswith("dstmc_")}
    if calls != {*by_header}:
        raise Failed(f"the header and the archive differ in {sorted(calls ^ {*by_header})}")
    if wants - WANTED:
        raise Failed(f"the archive wants {sorted(wants - WANTED)} of a program")
    return f"{len(calls)} calls"


def headers():
    """Returns the checks that the header is taken without a warning, by their names."""
    uses = '#include "dstm.h"\nstatic dstm_memory memory = DSTM_ZERO;\n'
    uses += "int main(void) { return dstm_memory_free(&memory) == DSTM_OK; }\n"
    checks = {}
    taken = [("gcc", "c", "c99"), ("gcc", "c", "c11"), ("clang", "c", "c99"), ("clang", "c", "c11")]
    for compiler, language, standard in [*taken, ("g++", "c++", "c++17"), ("clang++", "c++", "c++17")]:
        words = [f"-std={standard}", "-x", language, *WARNINGS, f"-I{HERE}/include", "-fsyntax-only", "-"]
        check = lambda by=compiler, words=words: call([compiler_for(by), *words], input=uses, stdin=None)
        checks[f"dstm.h as {standard} by {compiler}"] = check
    for name, how in BELLS.items():
        words = ["-std=c99", how, "-x", "c", *WARNINGS, f"-I{HERE}/include", "-fsyntax-only", "-"]
        checks[f"dstm.h {name}"] = lambda words=words: call([c_compiler(), *words], input=uses, stdin=None)
    return checks


def build_test(name, compiler, room, *how):
    words = [compiler, "-std=c99", "-O2", *how, *WARNINGS, f"-I{HERE}/include", "-o", f"{room}/{name}"]
    call([*words, f"{HERE}/tests/{name}.c", f"{OUT}/libdstm.a", *LINKED.get(name, ()), "-lpthread"])
    return f"{room}/{name}"


def run_test(name, room):
    call([build_test(name, c_compiler(), room)])


def guard(compiler, room):
    """Runs the test of dstm.hpp."""
    words = [compiler_for(compiler), "-std=c++17", "-O2", *WARNINGS, f"-I{HERE}/include", f"{HERE}/tests/guard.cc"]
    call([*words, f"{OUT}/libdstm.a", "-lpthread", "-o", f"{room}/guard"])
    for engine in BOTH:
        call([f"{room}/guard", engine])


def million(room):
    """Four threads make a million transactions each, by one part each, as TL2 lets them."""
    call([build_test("counter", c_compiler(), room), "tl2", "1000000"])


def hand_overs(room):
    """Two threads hand a turn over 200,000 times, by TL2."""
    call([build_test("waits", c_compiler(), room), "tl2", "100000"])


def waits_by(how, room):
    """Threads wait so: by a condition variable, or by naps."""
    program = build_test("waits", c_compiler(), room, how)
    for engine in BOTH:
        call([program, engine])


def one_bell(room):
    """Two parts of a program, one of which is C++ where there is a compiler, and a shared library have one bell."""
    words = ["-O2", *WARNINGS, f"-I{HERE}/include"]
    second = [c_compiler(), "-std=c99"]
    if shutil.which("g++") and works("g++"):
        second = ["g++", "-std=c++17", "-x", "c++"]
    source, library = f"{HERE}/tests/bells.c", f"{room}/libbells.so"
    call([*second, *words, "-DPART=1", "-c", source, "-o", f"{room}/second.o"])
    call([c_compiler(), *words, "-std=c99", "-DPART=2", "-fPIC", "-shared", source, f"{OUT}/libdstm.so", "-o", library])
    of_program = ["-std=c99", "-DPART=0", source, f"{room}/second.o", library, f"{OUT}/libdstm.so", "-lpthread"]
    call([c_compiler(), *words, *of_program, "-o", f"{room}/bells"])
    call([f"{room}/bells", "tl2"], env={**os.environ, "LD_LIBRARY_PATH": f"{room}:{OUT}"})


def by_valgrind(*more):
    """Returns the words that run a program under valgrind."""
    words = (tool("valgrind"), "-q", "--fair-sched=yes", "--error-exitcode=9", *more)
    if not works(c_compiler(), by=words):
        raise Missing("valgrind that works")
    return words


def valgrind(name, room):
    by = by_valgrind("--leak-check=full")
    program = build_test(name, c_compiler(), room)
    for engine in BOTH:
        call([*by, program, engine])


def sanitized(compiler, kind, room):
    """Runs tests under a sanitizer of a compiler. It sees what the tests and the header do, and each block that the
    library takes; the library's own loads and stores it does not see."""
    how = (f"-fsanitize={kind}", "-g")
    if not works(compiler_for(compiler), *how):
        raise Missing(f"{kind} sanitizer of {compiler} that works")
    for name in THREADED if kind == "thread" else TESTS:
        program = build_test(name, compiler, room, *how)
        for engine in BOTH[: 1 if name == "refused" else 2]:
            call([program, engine])


def python(name, says):
    """Runs a test of dstm.py."""
    for engine in ("0", "1"):
        how = {**os.environ, "DSTM_LIB": OUT, "PYTHONDONTWRITEBYTECODE": "1"}
        said = call([sys.executable, f"{HERE}/python/{name}", engine], env=how).strip()
        if said != says:
            raise Failed(f"it says {said}")


def cargo(*words):
    """Returns the words that call cargo, where it works here."""
    ran = subprocess.run([tool("cargo"), *words, "--version"], stdin=subprocess.DEVNULL, capture_output=True)
    if ran.returncode:
        raise Missing(" ".join(["cargo", *words]) + " that works")
    return ["cargo", *words]


def rust(room, *words, **more):
    """Runs the tests of the crate for Rust."""
    c_compiler()
    how = {**os.environ, "DSTM_LIB": OUT, "CARGO_TARGET_DIR": f"{room}/target", **more}
    toolchain, rest = [it for it in words if it[0] == "+"], [it for it in words if it[0] != "+"]
    said = call([*cargo(*toolchain), "test", "--offline", "--quiet", *rest], cwd=f"{HERE}/rust", env=how)
    return ", ".join(re.findall(r"([1-9]\d* passed)", said))


def rust_valgrind(room):
    """Runs them under valgrind, but the one that makes very many transactions."""
    words = ("--release", "--test", "all", "--", "--skip", "a_part_of_tl2_has_no_end")
    return rust(room, *words, CARGO_TARGET_X86_64_UNKNOWN_LINUX_GNU_RUNNER=" ".join(by_valgrind()))


# What rustc's thread sanitizer reports of std, which is not built with it: the counts of its Arc, and the test harness.
OF_STD = "race:alloc::sync::Arc<\nrace:test::event::CompletedTest\n"


def rust_sanitized(kind, room):
    """Runs them under a sanitizer of rustc, which a nightly compiler has."""
    target, flags, words = "x86_64-unknown-linux-gnu", [f"-Zsanitizer={kind}"], []
    more = {"CARGO_BUILD_TARGET": target}
    if kind == "thread":
        with open(f"{room}/of_std", "w", encoding="utf-8") as it:
            it.write(OF_STD)
        flags.append("-Cunsafe-allow-abi-mismatch=sanitizer")
        words = ["--test", "all", "--", "--test-threads", "1"]
        more["TSAN_OPTIONS"] = f"suppressions={room}/of_std"
    cargo("+nightly")
    trial = ["rustc", "+nightly", *flags, "--test", "--target", target, "-", "-o", f"{room}/trial"]
    try:
        call(trial, input="#[test]\nfn runs() {}\n", stdin=None)
        call([f"{room}/trial", "--test-threads", "1"], env={**os.environ, **more})
    except (Failed, OSError):
        raise Missing(f"{kind} sanitizer of rustc that works") from None
    return rust(room, "+nightly", *words, **more, RUSTFLAGS=" ".join(flags), RUSTDOCFLAGS=" ".join(flags))


def rust_clean(room):
    """The crate gives no warning, to the compiler, to clippy and to rustdoc."""
    c_compiler()
    cargo("clippy")
    how = {**os.environ, "DSTM_LIB": OUT, "CARGO_TARGET_DIR": f"{room}/target"}
    how = {**how, "RUSTDOCFLAGS": "-D warnings", "RUSTFLAGS": "-D warnings"}
    for words in (["clippy", "--all-targets"], ["clippy", "--all-targets", "--no-default-features"], ["doc"]):
        call(["cargo", *words, "--offline", "--quiet"], cwd=f"{HERE}/rust", env=how)


def install(prefix):
    """Installs the library below a folder, and builds a program there by what pkg-config says."""
    version = ".".join(map(str, NUMBERS))
    for folder in ("include", "lib/pkgconfig", "lib/cmake/dstm", "share/man/man1", "share/man/man3"):
        os.makedirs(f"{prefix}/{folder}", exist_ok=True)
    shutil.copyfile(HEADER, f"{prefix}/include/dstm.h")
    shutil.copyfile(f"{HERE}/include/dstm.hpp", f"{prefix}/include/dstm.hpp")
    shutil.copyfile(f"{OUT}/libdstm.a", f"{prefix}/lib/libdstm.a")
    soname = f"libdstm.so.{NUMBERS[0]}"
    if os.path.isfile(f"{OUT}/{soname}"):
        shutil.copyfile(f"{OUT}/{soname}", f"{prefix}/lib/{soname}")
        link = f"{prefix}/lib/libdstm.so"
        if os.path.lexists(link):
            os.remove(link)
        os.symlink(soname, link)
    with open(f"{prefix}/lib/pkgconfig/dstm.pc", "w", encoding="utf-8") as it:
        it.write(PC.format(prefix=os.path.abspath(prefix), version=version))
    shutil.copyfile(f"{HERE}/cmake/dstmConfig.cmake", f"{prefix}/lib/cmake/dstm/dstmConfig.cmake")
    with open(f"{prefix}/lib/cmake/dstm/dstmConfigVersion.cmake", "w", encoding="utf-8") as it:
        it.write(CMAKE_VERSION.format(version=version, first=NUMBERS[0]))
    for section in (1, 3):
        shutil.copyfile(f"{HERE}/man/dstm.{section}", f"{prefix}/share/man/man{section}/dstm.{section}")
    return os.path.abspath(prefix)


def by_pkg_config(room):
    """A program finds what was installed."""
    tool("pkg-config")
    prefix = install(f"{room}/prefix")
    how = {**os.environ, "PKG_CONFIG_PATH": f"{prefix}/lib/pkgconfig"}
    words = call(["pkg-config", "--cflags", "--libs", "dstm"], env=how).split()
    call([c_compiler(), "-std=c99", f"{HERE}/tests/counter.c", "-o", f"{room}/installed", *words, "-lpthread"])
    call([f"{room}/installed", "tl2"], env={**os.environ, "LD_LIBRARY_PATH": f"{prefix}/lib"})


def by_cmake(room):
    """A program finds the archive and the shared library that were installed."""
    tool("cmake")
    prefix, folder = install(f"{room}/prefix"), f"{room}/by_cmake"
    os.makedirs(folder)
    with open(f"{folder}/CMakeLists.txt", "w", encoding="utf-8") as it:
        version = ".".join(map(str, NUMBERS[:2]))
        it.write(CMAKE_PROGRAM.format(version=version, source=f"{HERE}/tests/counter.c"))
    call(["cmake", "-S", folder, "-B", f"{folder}/made", f"-DCMAKE_PREFIX_PATH={prefix}"])
    call(["cmake", "--build", f"{folder}/made"])
    for by in ("dstm", "shared"):
        call([f"{folder}/made/by_{by}", "tl2"])


def pages():
    """The man pages are set without a warning."""
    for section in (1, 3):
        said = call([tool("groff"), "-man", "-Tascii", "-ww", "-z", f"{HERE}/man/dstm.{section}"])
        if said:
            raise Failed(said)


def bench():
    """Measures transactions beside a mutex and beside gcc's transactional memory, by each of its methods; and reservations
    on maps."""
    tool("gcc")
    for name in ("c_library.py", "reserve.py"):
        print(call([sys.executable, f"{ROOT}/bench/{name}", "--library", f"{OUT}/libdstm.a"]), end="", flush=True)


def main():
    said = argparse.ArgumentParser(description=__doc__, formatter_class=argparse.RawDescriptionHelpFormatter)
    said.add_argument("--prefix")
    said.add_argument("--quiet", action="store_true")
    said.add_argument("--bench", action="store_true")
    said.add_argument("--behind-rt-ci", action="store_true")
    said.add_argument("--archive")
    args = said.parse_args()
    # Else glibc gives the words of each table back to the system, and takes new ones for the next.
    os.environ.update(MALLOC_MMAP_THRESHOLD_="30000000", MALLOC_TRIM_THRESHOLD_="1000000000")
    steps, made = Steps(args.quiet), {}
    os.makedirs(OUT, exist_ok=True)
    if args.archive:
        steps.step("the archive", lambda: made.update(exports=given(args.archive)))
    else:
        steps.step("the proof", lambda: made.update(exports=prove(args.behind_rt_ci)))
    if "exports" in made and steps.step("libdstm.a", lambda: archive(made["exports"])):
        with tempfile.TemporaryDirectory(prefix="dstm-c-") as room:
            steps.step("the header and the archive", same_calls)
            for name, check in headers().items():
                steps.step(name, lambda check=check: check() and None)
            for name in TESTS:
                steps.step(f"{name}.c", lambda name=name: run_test(name, room))
            for compiler in ("g++", "clang++"):
                steps.step(f"guard.cc by {compiler}", lambda compiler=compiler: guard(compiler, room))
            steps.step("counter.c with 4,000,000 transactions", lambda: million(room))
            steps.step("waits.c with 200,000 hand-overs", lambda: hand_overs(room))
            for name, how in BELLS.items():
                steps.step(f"waits.c {name}", lambda how=how: waits_by(how, room))
            for name in TESTS[:-1]:
                steps.step(f"{name}.c under valgrind", lambda name=name: valgrind(name, room))
            for compiler in ("gcc", "clang"):
                for kind in ("address", "thread"):
                    name = f"C tests under the {kind} sanitizer of {compiler}"
                    steps.step(name, lambda compiler=compiler, kind=kind: sanitized(compiler, kind, room))
            if steps.step("libdstm.so", shared):
                steps.step("counter.py", lambda: python("counter.py", "4000"))
                steps.step("structures.py", lambda: python("structures.py", "done"))
                steps.step("one bell of a program and its library", lambda: one_bell(room))
                steps.step("counter.c as installed", lambda: by_pkg_config(room))
                steps.step("counter.c by CMake", lambda: by_cmake(room))
                steps.step("the man pages", pages)
            if steps.step("the crate dstm for Rust", lambda: rust(room)):
                without = ("--no-default-features", "--test", "all")
                steps.step("the crate dstm without std", lambda: rust(room, *without))
                ignored = ("--release", "--test", "all", "--", "--ignored")
                steps.step("the crate dstm with 4,000,000 transactions", lambda: rust(room, *ignored))
                if not args.quiet:
                    steps.step("the crate dstm without a warning", lambda: rust_clean(room))
                steps.step("the crate dstm under valgrind", lambda: rust_valgrind(room))
                steps.step("the crate dstm under the address sanitizer", lambda: rust_sanitized("address", room))
                if not args.quiet:
                    steps.step("the crate dstm under the thread sanitizer", lambda: rust_sanitized("thread", room))
            with open(f"{OUT}/dstm.pc", "w", encoding="utf-8") as it:
                it.write(PC.format(prefix="/usr/local", version=".".join(map(str, NUMBERS))))
            if args.prefix:
                steps.step("the installation", lambda: install(args.prefix))
            if args.bench:
                steps.step("the benchmark", bench)
    elif args.prefix:
        steps.step("the installation", nothing_to_install)
    print(f"{steps.passed} passed, {steps.failed} failed, {steps.skipped} skipped", flush=True)
    return 1 if steps.failed or not (steps.passed or args.behind_rt_ci) else 0


if __name__ == "__main__":
    sys.exit(main())

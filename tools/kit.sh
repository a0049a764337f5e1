# What the scripts share, for `. tools/kit.sh` from the repository's root: the Rattle kit, what it builds and where that lies, and how
# the outside judges are built. POSIX sh.

complain() { printf 'tehilgam: %s\n' "$*" >&2; }

# Whether the kit's command is there.
find_kit() {
    command -v rt >/dev/null 2>&1 || { complain "the Rattle kit is missing: no 'rt' on the PATH"; return 1; }
}

install_package() { # PACKAGE
    echo "installing the package $1"
    { apt-get update && apt-get install -y --no-install-recommends "$1"; } >/dev/null 2>&1
}

# Installs a Debian package where the command is missing.
need() { # COMMAND PACKAGE
    command -v "$1" >/dev/null 2>&1 && return 0
    install_package "$2"
    command -v "$1" >/dev/null 2>&1 || { complain "$1 is missing, and the package $2 could not be installed"; return 1; }
}

# Where a program and a static library lie once they are proved and built: both are for x86-64 Linux, and run as they are.
program_of() { printf 'crates/%s/out/%s\n' "$1" "$1"; } # NAME
archive_of() { printf 'crates/%s/out/lib%s.a\n' "$1" "$1"; } # NAME

# Whether a file is there and no source of a crate changed since.
is_newest() { # FILE
    [ -s "$1" ] && [ -z "$(find crates.txt crates/*/src crates/*/specs crates/*/proofs -newer "$1" | head -n 1)" ]
}

# Proves and builds a crate where what it makes is missing or of older sources. Its time is then that of the look at the sources, so
# that a source which changes meanwhile is seen the next time.
build() { # NAME MADE COMMAND
    is_newest "$2" && return 0
    echo "building $1: it is proved first, which takes some minutes where its sources are new" >&2
    mkdir -p target
    : >"target/build-$1.began"
    (cd "crates/$1" && $3) >"target/build-$1.log" 2>&1 && [ -s "$2" ] ||
        { complain "$1 could not be built: target/build-$1.log says why"; return 1; }
    touch -r "target/build-$1.began" "$2"
}

# rt builds a program to run it: it runs on its crate's own input here.
run_on_stdin() { rt run <stdin; }

build_program() { build "$1" "$(program_of "$1")" run_on_stdin; } # NAME
build_archive() { build "$1" "$(archive_of "$1")" 'rt lib'; } # NAME

# Compiles one C file and links it with an archive that `rt lib` wrote.
link_c() { # OUT SOURCE ARCHIVE
    need gcc gcc || return 1
    [ -f /usr/include/stdio.h ] || install_package libc6-dev
    gcc -std=c11 -O2 -Wall -Wextra -Iinclude -o "$1" "$2" "$3"
}

# Whether a program of target/tests was built since its sources changed last.
is_built() { # NAME SOURCES...
    built=target/tests/$1
    shift
    [ -x "$built" ] && [ -e "$built.built" ] && [ -z "$(find "$@" -newer "$built.built" | head -n 1)" ]
}

# Compiles a library or a program of the outside judges, which finds the libraries that are compiled already.
compile_judge() { # OPTIONS... SOURCE
    rustc --edition 2021 -O -L target/tests "$@"
}

# Builds the second program, the cases and the driver that compares, where one of their sources is new.
build_judge() {
    is_built judge tests/second tests/cases tests/judge && return 0
    need rustc rustc || return 1
    mkdir -p target/tests
    : >target/tests/judge.began
    compile_judge --crate-type rlib --crate-name second --out-dir target/tests tests/second/lib.rs &&
        compile_judge --crate-type rlib --crate-name cases --out-dir target/tests tests/cases/lib.rs &&
        compile_judge --crate-name second_by_hand --extern second -o target/tests/second tests/second/main.rs &&
        compile_judge --crate-name judge --extern second --extern cases -o target/tests/judge tests/judge/main.rs &&
        mv target/tests/judge.began target/tests/judge.built
}

# Links the C driver of the two entries with the delivered archive, where one of their sources is new.
build_entries() {
    build_archive loader || return 1
    is_built entries "$(archive_of loader)" include tests/judge/entries.c && return 0
    mkdir -p target/tests
    : >target/tests/entries.began
    link_c target/tests/entries tests/judge/entries.c "$(archive_of loader)" >target/tests/entries.log 2>&1 ||
        { cat target/tests/entries.log; return 1; }
    mv target/tests/entries.began target/tests/entries.built
}

# For the scripts that build a C program with the library: where it lies, and one way to compile. Expects the repository as current folder.
library=${GOOSETABLE_LIB:-target/staticlib}/libgoosetable.a
built=target/examples

if [ ! -f "$library" ]; then
    echo "$0: no $library: 'tools/build goosetable' builds it; GOOSETABLE_LIB names another folder" >&2
    exit 1
fi
mkdir -p "$built"

# compile PROGRAM ARGUMENT...: with every warning an error; sources and further options are the arguments.
compile() {
    local program=$1
    shift
    "${CC:-gcc}" -Wall -Wextra -Wpedantic -Werror -Iinclude "$@" "$library" -o "$built/$program"
}

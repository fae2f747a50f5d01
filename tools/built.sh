# Which program is built, and of which sources. A file's date says nothing: all is told by sums of contents.

program=$root/out/nvk
# The sum of the sources that the program was built of, and that of the program itself.
record=$root/out/nvk.sum

# Prints the lines `NAME: LIBRARY ..` of crates.txt for the program's crate and for each that it uses.
crates_of_program() {
    local -A uses=()
    local line name wanted=(nv_cli) number
    while IFS= read -r line; do
        line=${line%%#*}
        [[ $line == *:* ]] || continue
        name=${line%%:*}
        uses[${name%% *}]=${line#*:}
    done <"$root/crates.txt"
    for ((number = 0; number < ${#wanted[@]}; number++)); do
        echo "${wanted[number]}:${uses[${wanted[number]}]-}"
        for name in ${uses[${wanted[number]}]-}; do
            # (a library that crates.txt does not list is the kit's)
            [[ ${uses[$name]+listed} && " ${wanted[*]} " != *" $name "* ]] && wanted+=("$name")
        done
    done
}

sum() { sha256sum | cut -d ' ' -f 1; }

# Prints the sum of all code and all definitions that the program is built of, with the names of their files. Proofs do not
# belong to them: a changed proof changes neither the program nor what was proved of it.
source_sum() (
    # so that files come in one order everywhere
    LC_ALL=C
    shopt -s globstar nullglob
    cd "$root" || exit
    crates=$(crates_of_program)
    files=()
    while IFS=: read -r name _; do
        files+=("crates/$name"/{src,specs}/**/*.{rt,antt})
    done <<<"$crates"
    { echo "$crates" && sha256sum -- "${files[@]}"; } | sum
)

# Whether the program stands built of the sources as they are.
is_current() {
    local sources own
    [ -x "$program" ] && [ -r "$record" ] && read -r sources own <"$record" &&
        [ "$sources" = "$(source_sum)" ] && [ "$own" = "$(sum <"$program")" ]
}

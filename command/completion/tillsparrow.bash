# Completion of the command tillsparrow for bash. `tillsparrow completion bash` prints it.
_tillsparrow() {
    local word=$2 before=$3 verb=${COMP_WORDS[1]-} words=
    COMPREPLY=()
    if [ "$COMP_CWORD" -eq 1 ]; then
        mapfile -t COMPREPLY < <(compgen -W "decode settle inspect note check completion help --help --version --settle" -- "$word")
        return
    fi
    case $before in
    -f | --format)
        mapfile -t COMPREPLY < <(compgen -W "png ppm pgm pnm" -- "$word")
        return
        ;;
    -j | --jobs) return ;;
    esac
    case $verb in
    decode) words="-o --output -f --format -j --jobs --as-coded --force --help" ;;
    settle) words="-o --output -j --jobs --force --help" ;;
    inspect) words="--json --help" ;;
    note) words="--raw --help" ;;
    check) words="-j --jobs --help" ;;
    completion) words="bash zsh fish" ;;
    help) words="decode settle inspect note check completion" ;;
    esac
    case $verb,$word in
    completion,* | help,* | *,-*) mapfile -t COMPREPLY < <(compgen -W "$words" -- "$word") ;;
    *)
        # names of files may hold spaces
        compopt -o filenames 2>/dev/null
        mapfile -t COMPREPLY < <(compgen -f -- "$word")
        ;;
    esac
}
complete -F _tillsparrow tillsparrow

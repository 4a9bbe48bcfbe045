# Completion of the words of stand in bash: source this file.
# Made from the text of stand --help by: cargo run --manifest-path host/Cargo.toml --bin manual
_stand() {
    local options='
    --alpha-threshold
    --no-key
    --tolerance
    --card-colour
    --fringe
    --no-crop
    --out
    --name
    --force
    --keep-going
    --small-weights
    --jobs
    --sheet
    --check
    --next-pass
    --quiet
    --help
    --version
    '
    COMPREPLY=()
    case $3 in
    --alpha-threshold) compopt +o default ;;
    --tolerance) compopt +o default ;;
    --card-colour) compopt +o default ;;
    --fringe) compopt +o default ;;
    --out) compopt +o default -o dirnames ;;
    --name) compopt +o default ;;
    --jobs) compopt +o default ;;
    --sheet) compopt +o default -o dirnames ;;
    --check) : ;;
    --next-pass) : ;;
    *) [[ $2 != -* ]] || mapfile -t COMPREPLY < <(compgen -W "$options" -- "$2") ;;
    esac
}
complete -o default -F _stand stand

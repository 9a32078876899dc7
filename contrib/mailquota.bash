# mailquota's commands, options and files. scripts/completion.py makes this of the program's table.
_mailquota() {
    local IFS=$' \t\n' options=
    local word=${COMP_WORDS[COMP_CWORD]} before=${COMP_WORDS[COMP_CWORD - 1]}
    COMPREPLY=()
    if [ "$COMP_CWORD" -eq 1 ]; then
        mapfile -t COMPREPLY < <(compgen -W 'init server filter status limit stop resume day retire report limits audit forget replay --help --version' -- "$word")
        return
    fi
    # (bash takes --config=FILE for three words)
    if [ "$word" = = ]; then
        word=
    elif [ "$before" = = ]; then
        before=${COMP_WORDS[COMP_CWORD - 2]}
    fi
    case $before in
    --config | --into)
        compopt -o default
        return
        ;;
    --connections | --run | --server | --host | --login | --login-text | --from | --ago | --cap | --day | --at | --top | --before | --default | --east | --west | --rule) return ;;
    esac
    case ${COMP_WORDS[1]} in
    init) options='--config --help' ;;
    server) options='--config --create --connections --endless --help' ;;
    filter) options='--config --run --check --help' ;;
    status) options='--server --host --config --json --help' ;;
    limit) options='--server --config --host --login --login-text --from --ago --cap --run --help' ;;
    stop) options='--server --config --host --login --login-text --day --ago --force --all --wait --help' ;;
    resume) options='--server --config --host --login --login-text --day --ago --cap --help' ;;
    day) options='--config --at --json --help' ;;
    retire) options='--server --config --host --run --help' ;;
    report) options='--server --config --day --ago --login --login-text --top --each --json --help' ;;
    limits) options='--config --json --help' ;;
    audit) options='--config --json --help' ;;
    forget) options='--config --before --into --help' ;;
    replay) options='--default --east --west --rule --sql --help' ;;
    esac
    # (a word without a name is a login or a number, and so is each behind two hyphens)
    case " ${COMP_WORDS[*]:1:COMP_CWORD-1} " in
    *' -- '*) return ;;
    esac
    case $word in
    -*) mapfile -t COMPREPLY < <(compgen -W "$options" -- "$word") ;;
    esac
}
complete -F _mailquota mailquota

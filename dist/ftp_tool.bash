# Completion of ftp_tool for bash, as /usr/local/share/bash-completion/completions/ftp_tool. Places of a server are not completed.
# `scripts/options` makes this file of dist/options.

# the options of a subcommand
_ftp_tool_options() {
    case $1 in
        get) echo '--user --password-file --active --extended --no-extended --quiet --timeout --max-time --limit --limit-rate --parallel --progress --type
            --stru --mode --keep --continue --moment --no-glob --help' ;;
        put) echo '--user --password-file --active --extended --no-extended --quiet --timeout --max-time --limit --limit-rate --temp --parallel --progress
            --type --stru --mode --help' ;;
        ls) echo '--user --password-file --active --extended --no-extended --quiet --timeout --max-time --limit --progress --type --stru --mode --long --json
            --no-glob --help' ;;
        cat) echo '--user --password-file --active --extended --no-extended --quiet --timeout --max-time --limit --progress --type --stru --mode --help' ;;
        size) echo '--user --password-file --active --extended --no-extended --quiet --timeout --max-time --limit --progress --type --stru --mode --help' ;;
        rm) echo '--user --password-file --active --extended --no-extended --quiet --timeout --max-time --limit --parallel --progress --type --stru --mode
            --no-glob --help' ;;
        mkdir) echo '--user --password-file --active --extended --no-extended --quiet --timeout --max-time --limit --progress --type --stru --mode --parents
            --help' ;;
        rmdir) echo '--user --password-file --active --extended --no-extended --quiet --timeout --max-time --limit --progress --type --stru --mode --help' ;;
        mv) echo '--user --password-file --active --extended --no-extended --quiet --timeout --max-time --limit --progress --type --stru --mode --help' ;;
        mirror) echo '--user --password-file --active --extended --no-extended --quiet --timeout --max-time --limit --limit-rate --parallel --delete
            --delete-any --dry-run --json --progress --checksum --exclude --no-flush --help' ;;
        run) echo '--user --password-file --timeout --host --port --help' ;;
        serve) echo '--port --dir --host --accounts --sessions --at-once --at-once-per-host --until-input-ends --stop-file --finish --log --log-format --keep
            --login --idle --idle-while-waited --session-while-waited --login-while-waited --passive-ports --passive-address --skip --most-octets
            --most-of-a-file --most-files --any --help' ;;
        password) echo '--rounds --help' ;;
        dialogue) echo '--piece --help' ;;
        facts) echo '--help' ;;
        frame) echo '--type --stru --mode --marks --read --help' ;;
        loop) echo '--help' ;;
        pair) echo '--piece --transcript --roots --help' ;;
    esac
}

# what comes after a word of a subcommand: files, directories, or one of the words that it writes
_ftp_tool_values() {
    case $2 in
        --user | --timeout | --max-time | --limit | --limit-rate | --parallel | --exclude | --rounds | --host | --port | --sessions | --at-once | \
            --at-once-per-host | --finish | --login | --idle | --idle-while-waited | --session-while-waited | --login-while-waited | --passive-ports | \
            --passive-address | --piece) ;;
        --password-file | --accounts | --stop-file) echo files ;;
        --type) echo A I ;;
        --stru) echo F R ;;
        --mode) echo S B ;;
        --dir) echo directories ;;
        --log-format) echo text json xferlog ;;
        --most-octets | --most-of-a-file | --most-files) echo any ;;
        *) case $1 in
            get | put) echo files ;;
            mirror) echo directories ;;
        esac ;;
    esac
}

_ftp_tool() {
    local word=${COMP_WORDS[COMP_CWORD]} subcommand=${COMP_WORDS[1]} values
    if [ "$COMP_CWORD" -eq 1 ]; then
        values='get put ls cat size rm mkdir rmdir mv mirror run serve password dialogue facts frame loop pair --help --version'
    elif [[ $word == -* ]]; then
        values=$(_ftp_tool_options "$subcommand")
    else
        values=$(_ftp_tool_values "$subcommand" "${COMP_WORDS[COMP_CWORD - 1]}")
    fi
    case $values in
        files) compopt -o filenames && mapfile -t COMPREPLY < <(compgen -f -- "$word") ;;
        directories) compopt -o filenames && mapfile -t COMPREPLY < <(compgen -d -- "$word") ;;
        *) mapfile -t COMPREPLY < <(compgen -W "$values" -- "$word") ;;
    esac
}

complete -F _ftp_tool ftp_tool

# Completion of tilfrjon and sftp_transfer for bash.

_tilfrjon() {
    local word=$2 before=$3 verb='' each
    local copy='-p -q --resume --verify --sync --progress --links --files --window --in-flight --rate --timeout'
    local mirror='-n --dry-run --delete --delete-at-most --exclude --include --exclude-from --size-only --always --update --again --shard'
    for each in "${COMP_WORDS[@]:1:COMP_CWORD-1}"; do
        case $each in get | put | pull | push | list | remove | mkdir | chmod | move | link) verb=$each && break ;; esac
    done
    case $before in
    --links) COMPREPLY=($(compgen -W as-is -- "$word")) && return ;;
    --files | --window | --in-flight | --limit | --rate | --timeout | --delete-at-most | --exclude | --include | --again | --shard) return ;;
    esac
    case $verb:$word in
    :-*) COMPREPLY=($(compgen -W '--help --version' -- "$word")) ;;
    :*)
        if [ "$1" = sftp_transfer ] && [ "$COMP_CWORD" -eq 1 ]; then
            COMPREPLY=($(compgen -W 'ssh: unix: tcp: files: stdio' -- "$word"))
            compopt -o nospace
        else
            COMPREPLY=($(compgen -W 'get put pull push list remove mkdir chmod move link' -- "$word"))
        fi
        ;;
    list:-*) COMPREPLY=($(compgen -W '-l --timeout' -- "$word")) ;;
    remove:-*) COMPREPLY=($(compgen -W '-r --timeout' -- "$word")) ;;
    mkdir:-*) COMPREPLY=($(compgen -W '-p --timeout' -- "$word")) ;;
    chmod:-* | move:-* | link:-*) COMPREPLY=($(compgen -W --timeout -- "$word")) ;;
    pull:-* | push:-*) COMPREPLY=($(compgen -W "$copy $mirror" -- "$word")) ;;
    *:-*) COMPREPLY=($(compgen -W "-r $copy" -- "$word")) ;;
    *) COMPREPLY=($(compgen -f -- "$word")) && compopt -o filenames ;;
    esac
}
complete -F _tilfrjon tilfrjon sftp_transfer

# Completion of the words of mbox2maildir and mbox2maildir-admin, for bash.

# Offers what compgen finds for the word that is completed.
_mbox2maildir_offer() {
    # so that a name with a space is quoted, and a folder gets its slash; not known where no completion is going on
    test "$1" = -W || compopt -o filenames 2>/dev/null
    mapfile -t COMPREPLY < <(compgen "$@")
}

# A command, and then the Maildir and the files that it takes.
_mbox2maildir() {
    COMPREPLY=()
    case $COMP_CWORD,${COMP_WORDS[1]} in
        1,*) _mbox2maildir_offer -W 'convert list rewrite' -- "$2" ;;
        2,list | 2,rewrite) _mbox2maildir_offer -A file -- "$2" ;;
        2,convert) _mbox2maildir_offer -A directory -- "$2" ;;
        *,convert) _mbox2maildir_offer -A file -- "$2" ;;
    esac
}

# A word, and then its options and what it takes.
_mbox2maildir_admin() {
    local place=0 index options=--help
    COMPREPLY=()
    if ((COMP_CWORD == 1)); then
        _mbox2maildir_offer -W 'kind quote dates migrate verify back explain --help --version' -- "$2"
        return
    fi
    case ${COMP_WORDS[1]} in
        quote) options+=' --as --text --begin --of --drop-deleted --dovecot --output' ;;
        dates) options+=' --header' ;;
        kind) options+=' --json' ;;
        verify) options+=' --json --all --users --maildir --tree --jobs --names --report' ;;
        back) options+=' --dry-run --dovecot --now --all --json --report --users --maildir --tree --jobs --names' ;;
        migrate) options+=' --prepare --unread --dry-run --folder --labels --label --again --dovecot --as --text --begin --of --drop-deleted --no-mail --now --any-disk --all --json --no-questions --report --undo --users --maildir --tree --jobs --names --list' ;;
    esac
    for ((index = 2; index < COMP_CWORD; index++)); do
        case ${COMP_WORDS[index]} in
            --as | --text | --begin | --of | --jobs | --output | -o | --folder | --maildir | --tree | --no-mail | --names | --report) ((index++)) ;;
            -*) ;;
            *) ((++place)) ;;
        esac
    done
    case ${COMP_WORDS[1]},$place,$3 in
        *,--as) _mbox2maildir_offer -W 'mboxrd mboxo mboxcl mboxcl2 unquoted' -- "$2" ;;
        *,--text | *,--begin | *,--of | *,--jobs | *,--folder | *,--maildir | *,--tree | *,--no-mail) ;;
        *,--names | *,--report) _mbox2maildir_offer -A file -- "$2" ;;
        *) case ${COMP_WORDS[1]},$place,$2 in
            *,*,-*) _mbox2maildir_offer -W "$options" -- "$2" ;;
            dates,0,* | verify,0,* | migrate,0,* | back,0,*) _mbox2maildir_offer -A directory -- "$2" ;;
            kind,* | quote,0,* | dates,* | migrate,* | verify,* | back,*) _mbox2maildir_offer -A file -- "$2" ;;
        esac ;;
    esac
}

complete -F _mbox2maildir mbox2maildir
complete -F _mbox2maildir_admin mbox2maildir-admin

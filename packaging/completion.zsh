#compdef mbox2maildir mbox2maildir-admin
# Completion of the words of mbox2maildir and mbox2maildir-admin, for zsh.

_mbox2maildir_program() {
    local -a offered
    offered=(
        'convert:deliver each message that is not there'
        'list:print a line for each message'
        'rewrite:print the text in its regular spelling'
    )
    if ((CURRENT == 2)); then
        _describe command offered
    elif [[ $words[2] == convert && $CURRENT == 3 ]]; then
        _path_files -/
    elif [[ $words[2] == convert || $words[2] == (list|rewrite) && $CURRENT == 3 ]]; then
        _files
    fi
}

_mbox2maildir_admin() {
    local -a offered
    offered=(
        'kind:say what files are, and what to do first'
        'quote:write a copy of a mailbox, to be converted by hand'
        'dates:give converted files the dates of their From_ lines'
        'migrate:do the whole migration of mailboxes into a Maildir'
        'verify:look whether each message is in the Maildir'
        'back:append what is new in a Maildir to the old mailboxes'
        'explain:say what the words of rows mean'
    )
    if ((CURRENT == 2)); then
        [[ $PREFIX == -* ]] && offered=('--help:print help' '--version:print the version')
        _describe word offered
        return
    fi
    local word=$words[2]
    local -a decides
    decides=(
        '--as[how mailboxes were written]:word:(mboxrd mboxo mboxcl mboxcl2 unquoted)'
        '*--text[lines that are mail]:lines' '*--begin[lines that begin messages]:lines'
        '--of[of which text these are lines]:text' '--drop-deleted[leave out what Thunderbird marked as deleted]'
    )
    shift words
    ((CURRENT--))
    case $word in
        kind) _arguments '--help[print help]' '--json[print objects of JSON]' '*:mailbox:_files' ;;
        quote)
            _arguments '--help[print help]' '(-o --output)'{-o,--output}'[name of the copy]:copy:_files' $decides \
                '--dovecot[leave out the header fields that Dovecot hides]' ':mailbox:_files'
            ;;
        dates) _arguments '--help[print help]' '--header[take the date of the header Date]' ':Maildir:_path_files -/' '*:mailbox:_files' ;;
        migrate)
            _arguments '--help[print help]' '--dry-run[print what would be done]' \
                '--prepare[place mail for later, while people use it]' '--unread[with --prepare: nobody reads MAILDIR]' \
                '--folder[folder of the Maildir]:name' \
                '--labels[make folders of labels]' '*--label[whether a label gives a folder]:name=what' \
                '--again[convert what of a mailbox is nowhere]' '--undo[remove what a mailbox placed]' \
                '--dovecot[write the files of Dovecot]' $decides \
                '*--no-mail[pass over what is not known by its path]:pattern' '--now[wait for no quiet minute]' \
                '--any-disk[migrate even where a power cut could take mail away]' \
                '--all[print whole rows]' '--json[print objects of JSON]' '--no-questions[ask nothing on a terminal]' \
                '--report[write these objects to a new file]:file:_files' '--users[migrate a spool, each mailbox as its user]' \
                '--maildir[Maildir of each home]:name' '--tree[folder of mailboxes of each home]:name' \
                '--jobs[how many folders or users at a time]:number' '--names[file with the names of users]:file:_files' \
                '--list[only print these users]' \
                ':Maildir, or old spool:_path_files -/' '*:mailbox:_files'
            ;;
        back)
            _arguments '--help[print help]' '--dry-run[print what would go back]' \
                '--dovecot[carry over UIDs, keywords and subscriptions]' '--now[wait for no quiet minute]' '--all[print whole rows]' '--json[print objects of JSON]' \
                '--report[write these objects to a new file]:file:_files' '--users[go back to a spool, each mailbox as its user]' \
                '--maildir[Maildir of each home]:name' '--tree[folder of mailboxes of each home]:name' \
                '--jobs[how many users at a time]:number' '--names[file with the names of users]:file:_files' \
                ':Maildir, or old spool:_path_files -/' '*:mailbox:_files'
            ;;
        verify)
            _arguments '--help[print help]' '--json[print objects of JSON]' '--all[name files without mail too]' \
                '--users[check a spool, each mailbox as its user]' '--maildir[Maildir of each home]:name' \
                '--tree[folder of mailboxes of each home]:name' '--jobs[how many users at a time]:number' \
                '--names[file with the names of users]:file:_files' '--report[write objects to a new file]:file:_files' \
                ':Maildir, or old spool:_path_files -/' '*:mailbox:_files'
            ;;
    esac
}

case $service in
    mbox2maildir) _mbox2maildir_program "$@" ;;
    mbox2maildir-admin) _mbox2maildir_admin "$@" ;;
esac

# Completion of the words of mbox2maildir and mbox2maildir-admin, for fish. It is installed under both names, and may be read
# twice.

complete --erase --command mbox2maildir
complete --erase --command mbox2maildir-admin

# how many words stand on the line after the first two, without options
function __mbox2maildir_operands
    set -l words (commandline --tokenize --cut-at-cursor --current-process)
    set -l skip 0
    set -l count 0
    for word in $words[3..-1]
        if test $skip = 1
            set skip 0
        else if contains -- $word --as --text --begin --of --jobs --output -o --folder --maildir --tree --no-mail --names --report
            set skip 1
        else if not string match --quiet -- '-*' $word
            set count (math $count + 1)
        end
    end
    echo $count
end

function __mbox2maildir_at --argument-names word least most
    set -l words (commandline --tokenize --cut-at-cursor --current-process)
    test (count $words) -gt 1; and test $words[2] = $word; or return 1
    set -l count (__mbox2maildir_operands)
    test $count -ge $least -a $count -le $most
end

function __mbox2maildir_first
    test (count (commandline --tokenize --cut-at-cursor --current-process)) = 1
end

complete -c mbox2maildir -f
complete -c mbox2maildir -n __mbox2maildir_first -a convert -d 'deliver each message that is not there'
complete -c mbox2maildir -n __mbox2maildir_first -a list -d 'print a line for each message'
complete -c mbox2maildir -n __mbox2maildir_first -a rewrite -d 'print the text in its regular spelling'
complete -c mbox2maildir -n '__mbox2maildir_at convert 0 0' -a '(__fish_complete_directories)'
complete -c mbox2maildir -n '__mbox2maildir_at convert 1 9999; or __mbox2maildir_at list 0 0; or __mbox2maildir_at rewrite 0 0' -F

complete -c mbox2maildir-admin -f
complete -c mbox2maildir-admin -l help -d 'print help'
complete -c mbox2maildir-admin -n __mbox2maildir_first -l version -d 'print the version'
complete -c mbox2maildir-admin -n __mbox2maildir_first -a kind -d 'say what files are, and what to do first'
complete -c mbox2maildir-admin -n __mbox2maildir_first -a quote -d 'write a copy of a mailbox, to be converted by hand'
complete -c mbox2maildir-admin -n __mbox2maildir_first -a dates -d 'give converted files the dates of their From_ lines'
complete -c mbox2maildir-admin -n __mbox2maildir_first -a migrate -d 'do the whole migration of mailboxes into a Maildir'
complete -c mbox2maildir-admin -n __mbox2maildir_first -a verify -d 'look whether each message is in the Maildir'
complete -c mbox2maildir-admin -n __mbox2maildir_first -a back -d 'append what is new in a Maildir to the old mailboxes'
complete -c mbox2maildir-admin -n __mbox2maildir_first -a explain -d 'say what the words of rows mean'
complete -c mbox2maildir-admin -n '__mbox2maildir_at migrate 0 9999; or __mbox2maildir_at back 0 9999' -l all -d 'print whole rows'
complete -c mbox2maildir-admin -n '__mbox2maildir_at kind 0 9999; or __mbox2maildir_at quote 0 0' -F
complete -c mbox2maildir-admin -n '__mbox2maildir_at dates 1 9999; or __mbox2maildir_at verify 1 9999; or __mbox2maildir_at migrate 1 9999; or __mbox2maildir_at back 1 9999' -F
complete -c mbox2maildir-admin -n '__mbox2maildir_at dates 0 0; or __mbox2maildir_at verify 0 0; or __mbox2maildir_at migrate 0 0; or __mbox2maildir_at back 0 0' -a '(__fish_complete_directories)'
set -l __mbox2maildir_decides '__mbox2maildir_at quote 0 1; or __mbox2maildir_at migrate 0 9999'
complete -c mbox2maildir-admin -n $__mbox2maildir_decides -l as -x -a 'mboxrd mboxo mboxcl mboxcl2 unquoted' -d 'how mailboxes were written'
complete -c mbox2maildir-admin -n $__mbox2maildir_decides -l text -x -d 'lines that are mail'
complete -c mbox2maildir-admin -n $__mbox2maildir_decides -l begin -x -d 'lines that begin messages'
complete -c mbox2maildir-admin -n $__mbox2maildir_decides -l of -x -d 'of which text these are lines'
complete -c mbox2maildir-admin -n $__mbox2maildir_decides -l drop-deleted -d 'leave out what Thunderbird marked as deleted'
complete -c mbox2maildir-admin -n '__mbox2maildir_at quote 0 1' -s o -l output -r -d 'name of the copy'
complete -c mbox2maildir-admin -n '__mbox2maildir_at quote 0 1' -l dovecot -d 'leave out the header fields that Dovecot hides'
complete -c mbox2maildir-admin -n '__mbox2maildir_at dates 0 9999' -l header -d 'take the date of the header Date'
complete -c mbox2maildir-admin -n '__mbox2maildir_at migrate 0 9999' -l dry-run -d 'print what would be done'
complete -c mbox2maildir-admin -n '__mbox2maildir_at migrate 0 9999' -l prepare -d 'place mail for later, while people use it'
complete -c mbox2maildir-admin -n '__mbox2maildir_at migrate 0 9999' -l unread -d 'with --prepare: nobody reads MAILDIR'
complete -c mbox2maildir-admin -n '__mbox2maildir_at migrate 0 9999' -l folder -x -d 'folder of the Maildir'
complete -c mbox2maildir-admin -n '__mbox2maildir_at migrate 0 9999' -l again -d 'convert what of a mailbox is nowhere'
complete -c mbox2maildir-admin -n '__mbox2maildir_at migrate 0 9999' -l labels -d 'make folders of labels'
complete -c mbox2maildir-admin -n '__mbox2maildir_at migrate 0 9999' -l label -x -d 'whether a label gives a folder'
complete -c mbox2maildir-admin -n '__mbox2maildir_at migrate 0 9999' -l undo -d 'remove what a mailbox placed'
complete -c mbox2maildir-admin -n '__mbox2maildir_at migrate 0 9999' -l dovecot -d 'write the files of Dovecot'
complete -c mbox2maildir-admin -n '__mbox2maildir_at migrate 0 9999' -l no-mail -x -d 'pass over what is not known by its path'
complete -c mbox2maildir-admin -n '__mbox2maildir_at migrate 0 9999' -l now -d 'wait for no quiet minute'
complete -c mbox2maildir-admin -n '__mbox2maildir_at migrate 0 9999' -l any-disk -d 'migrate even where a power cut could take mail away'
complete -c mbox2maildir-admin -n '__mbox2maildir_at kind 0 9999; or __mbox2maildir_at migrate 0 9999; or __mbox2maildir_at verify 0 9999; or __mbox2maildir_at back 0 9999' -l json -d 'print objects of JSON'
complete -c mbox2maildir-admin -n '__mbox2maildir_at migrate 0 9999' -l report -r -F -d 'new file for these objects'
complete -c mbox2maildir-admin -n '__mbox2maildir_at migrate 0 9999' -l no-questions -d 'ask nothing on a terminal'
complete -c mbox2maildir-admin -n '__mbox2maildir_at migrate 0 9999' -l users -d 'migrate a spool, each mailbox as its user'
complete -c mbox2maildir-admin -n '__mbox2maildir_at migrate 0 9999' -l maildir -x -d 'Maildir of each home'
complete -c mbox2maildir-admin -n '__mbox2maildir_at migrate 0 9999' -l tree -x -d 'folder of mailboxes of each home'
complete -c mbox2maildir-admin -n '__mbox2maildir_at migrate 0 9999' -l jobs -x -d 'how many folders or users at a time'
complete -c mbox2maildir-admin -n '__mbox2maildir_at migrate 0 9999' -l names -r -F -d 'file with the names of users'
complete -c mbox2maildir-admin -n '__mbox2maildir_at migrate 0 9999' -l list -d 'only print these users'
complete -c mbox2maildir-admin -n '__mbox2maildir_at back 0 9999' -l dry-run -d 'print what would go back'
complete -c mbox2maildir-admin -n '__mbox2maildir_at back 0 9999' -l dovecot -d 'carry over UIDs, keywords and subscriptions'
complete -c mbox2maildir-admin -n '__mbox2maildir_at back 0 9999' -l now -d 'wait for no quiet minute'
complete -c mbox2maildir-admin -n '__mbox2maildir_at back 0 9999' -l report -r -F -d 'new file for objects of JSON'
complete -c mbox2maildir-admin -n '__mbox2maildir_at back 0 9999' -l users -d 'go back to a spool, each mailbox as its user'
complete -c mbox2maildir-admin -n '__mbox2maildir_at back 0 9999' -l maildir -x -d 'Maildir of each home'
complete -c mbox2maildir-admin -n '__mbox2maildir_at back 0 9999' -l tree -x -d 'folder of mailboxes of each home'
complete -c mbox2maildir-admin -n '__mbox2maildir_at back 0 9999' -l jobs -x -d 'how many users at a time'
complete -c mbox2maildir-admin -n '__mbox2maildir_at back 0 9999' -l names -r -F -d 'file with the names of users'
complete -c mbox2maildir-admin -n '__mbox2maildir_at verify 0 9999' -l all -d 'name files without mail too'
complete -c mbox2maildir-admin -n '__mbox2maildir_at verify 0 9999' -l users -d 'check a spool, each mailbox as its user'
complete -c mbox2maildir-admin -n '__mbox2maildir_at verify 0 9999' -l maildir -x -d 'Maildir of each home'
complete -c mbox2maildir-admin -n '__mbox2maildir_at verify 0 9999' -l tree -x -d 'folder of mailboxes of each home'
complete -c mbox2maildir-admin -n '__mbox2maildir_at verify 0 9999' -l jobs -x -d 'how many users at a time'
complete -c mbox2maildir-admin -n '__mbox2maildir_at verify 0 9999' -l names -r -F -d 'file with the names of users'
complete -c mbox2maildir-admin -n '__mbox2maildir_at verify 0 9999' -l report -r -F -d 'new file for objects of JSON'

# Completion for bash: source this file. It offers MPS files, folders and, behind a dash, options.
_ug() {
    local at=$COMP_CWORD words=
    local word=${COMP_WORDS[at]} before=${COMP_WORDS[at - 1]}
    # bench/options writes from here, by docs/options.tsv,
    local options='--solvers --racing --base --low --high --checkpoint --every --limit --gap --box --mode --sockets'
    local numbers='--solvers --low --high --every --limit --gap --box'
    local folders='--checkpoint --sockets'
    local -A values=([--base]='bound surrogate' [--mode]='threads processes')
    # to here (bench/options)
    local commands='solve restart show gen worker' form forms='[mM][pP][sS]'
    # The script ./ug of a checkout has four commands more than the program, and reads two forms of files more.
    if [ "$(head -c 2 -- "$(type -P -- "${COMP_WORDS[0]}")" 2>/dev/null)" = '#!' ]; then
        commands+=' help version install uninstall' forms+=' [lL][pP] [gG][zZ]'
    fi
    # Between an option and its word '=' may stand, which is a word by itself here.
    [ "$before" = = ] && before=${COMP_WORDS[at - 2]}
    [ "$word" = = ] && before=${COMP_WORDS[at - 1]} word=
    if [ "$at" -gt 1 ]; then
        case " $folders " in *" $before "*) before=folder ;; esac
        case " $numbers " in *" $before "*) before=number ;; esac
        [ -z "${values[$before]-}" ] || words=${values[$before]} before=words
    fi
    case $at:${COMP_WORDS[1]}:$before:$word in
    1:*) words=$(compgen -W "$commands" -- "$word") ;;
    *:folder:*) words=$(compgen -d -- "$word") ;;
    *:words:*) words=$(compgen -W "$words" -- "$word") ;;
    *:--socket:*) words=$(compgen -f -- "$word") ;;
    *:number:*) ;;
    *:install:* | *:uninstall:*) words=$(compgen -d -- "$word") ;;
    *:worker:*) words=$(compgen -W --socket -- "$word") ;;
    *:show:*) words=$(compgen -W --checkpoint -- "$word") ;;
    *:gen:*:-*) words=$(compgen -W --solvers -- "$word") ;;
    *:gen:*) ;;
    *:-*) words=$(compgen -W "$options" -- "$word") ;;
    *) words=$(compgen -d -- "$word"
        set -f
        for form in $forms; do compgen -f -X "!*.$form" -- "$word"; done) ;;
    esac
    COMPREPLY=()
    [ -z "$words" ] || mapfile -t COMPREPLY <<<"$words"
}
complete -o filenames -F _ug ug

# Completion of telexplan for bash: `source docs/telexplan.bash`, with telexplan on the path.
# The names that the lines of a kind declare in the plan that is named behind the command.
_telexplan_names() {
    [ -f "${COMP_WORDS[2]}" ] && sed -n "s/^[[:blank:]]*$1[[:blank:]]\{1,\}\([A-Z0-9]*\).*/\1/p" "${COMP_WORDS[2]}"
}
_telexplan() {
    local word=${COMP_WORDS[COMP_CWORD]} words= before= kind=CODE
    case ${COMP_WORDS[COMP_CWORD - 1]} in
        --limit) words=$(echo {0..62}) ;;
        --spare | --spare-now) words=$(echo {0..15}) ;;
        --stage) words=$(echo {0..128}) ;;
        --through) words="$(_telexplan_names EXCHANGE) $(_telexplan_names GROUP)" ;;
        --down-exchange) words=$(_telexplan_names EXCHANGE) ;;
        --down | --code)
            # one more name behind the last comma
            case $word in *,*) before=${word%,*}, ;; esac
            case ${COMP_WORDS[COMP_CWORD - 1]} in --down) kind=GROUP ;; esac
            words=$(_telexplan_names $kind | sed "s/^/$before/")
            ;;
        --cert | --mixture | --plan | --risks | --counter | --from | --html) ;;
        *)
            case $COMP_CWORD:${COMP_WORDS[1]}:$word in
                1:*) words="lint audit grade mend change order survive page check run codes trace fill explain help --help --version" ;;
                *:help:*) words="lint audit grade mend change order survive page check run codes trace fill explain" ;;
                *:explain:*) words="--help $(telexplan explain 2>/dev/null | cut -d ' ' -f 1)" ;;
                *:audit:-*) words="--limit --spare --cert --counter --down --down-exchange --help" ;;
                *:mend:-*) words="--limit --spare --plan --cert --down --down-exchange --help" ;;
                *:change:-*) words="--limit --spare --cert --mixture --counter --down --down-exchange --help" ;;
                *:order:-*) words="--limit --spare --stage --plan --cert --done --back --spare-now --down --down-exchange --help" ;;
                *:lint:-*) words="--risks --help" ;;
                *:survive:-*) words="--risks --risks-only --from --down --down-exchange --help" ;;
                *:page:-*) words="--limit --spare --risks --from --code --all-codes --by-exchange --html --down --down-exchange --help" ;;
                *:check:-*) words="--limit --spare --help" ;;
                *:run:-*) words="--cert --limit --spare --strict --echo --summary --help" ;;
                *:grade:-*) words="--down --down-exchange --help" ;;
                *:codes:-*) words="--help" ;;
                *:trace:-*) words="--down --through --from --help" ;;
                *:fill:-*) words="--down --help" ;;
                3:trace:* | 3:fill:*) words=$(_telexplan_names EXCHANGE) ;;
                4:trace:* | 4:fill:*) words=$(_telexplan_names CODE) ;;
            esac
            ;;
    esac
    # where no words are offered, `-o default` offers files
    COMPREPLY=($(compgen -W "$words" -- "$word"))
}
complete -o default -F _telexplan telexplan

# Completions of webgraph for bash. Made by completions/make.

_webgraph() {
    local word=${COMP_WORDS[COMP_CWORD]} kinds options option='' closed='' kind=words
    local -i i=2 place=0
    COMPREPLY=()
    if ((COMP_CWORD == 1)); then
        mapfile -t COMPREPLY < <(compgen -W 'check arcs offsets ascii show spot rank verify build import quotient recode union transpose bulk' -- "$word")
        return
    fi
    case ${COMP_WORDS[1]} in
        check | arcs | offsets | ascii) kinds=(archive) options='' ;;
        show) kinds=(archive numbers) options='' ;;
        spot) kinds=(archive number) options='' ;;
        rank) kinds=(archive) options='--rounds --damping --top --weights --certificate' ;;
        verify) kinds=(archive file) options='--weights' ;;
        build) kinds=(file archive) options='--nodes --window --chain --interval --zeta --outdegrees --references --blockcounts --blocks --residuals --offsets' ;;
        import) kinds=(file archive) options='--window --chain --interval --zeta --outdegrees --references --blockcounts --blocks --residuals --offsets' ;;
        quotient) kinds=(archive file archive) options='--classes --window --chain --interval --zeta --outdegrees --references --blockcounts --blocks --residuals --offsets' ;;
        recode | transpose) kinds=(archive archive) options='--window --chain --interval --zeta --outdegrees --references --blockcounts --blocks --residuals --offsets' ;;
        union) kinds=(archive archive archive) options='--window --chain --interval --zeta --outdegrees --references --blockcounts --blocks --residuals --offsets' ;;
        bulk) kinds=(number number) options='' ;;
        *) return ;;
    esac
    # Which word of the command this is, or the value of which option. What is written --zeta=3 comes as three words.
    while ((i < COMP_CWORD)); do
        if [[ ! $closed && ${COMP_WORDS[i]} == -- ]]; then
            closed=yes
        elif [[ ! $closed && ${COMP_WORDS[i]} == --* ]]; then
            option=${COMP_WORDS[i++]}
            if ((i < COMP_CWORD)) && [[ ${COMP_WORDS[i]} == = ]]; then i+=1; fi
            if ((i < COMP_CWORD)); then option=; fi
        else
            place+=1
        fi
        i+=1
    done
    if [[ $option ]]; then
        if [[ $word == = ]]; then word=; fi
        case ${option#--} in
            weights | certificate) kind='file' ;;
            chain) options='none' ;;
            outdegrees | blocks | offsets) options='gamma delta' ;;
            references | blockcounts) options='unary gamma delta' ;;
            residuals) options='zeta gamma delta nibble' ;;
            *) return ;;
        esac
    elif [[ $closed || $word != -* ]]; then
        kind=${kinds[place]-}
    fi
    case $kind in
        words) mapfile -t COMPREPLY < <(compgen -W "$options" -- "$word") ;;
        file) compopt -o default ;;
        archive)
            compopt -o filenames
            word=${word//\\/}
            mapfile -t COMPREPLY < <(compgen -d -- "$word"
                compgen -f -X '!*.properties' -- "$word" | sed 's/\.properties$//')
            ;;
    esac
}

complete -F _webgraph webgraph

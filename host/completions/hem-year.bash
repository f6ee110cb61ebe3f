# Completion of hem-year in bash. tests/program_usage.rs holds it against the program's own help.

_hem_year() {
    local word=${COMP_WORDS[COMP_CWORD]} before=${COMP_WORDS[COMP_CWORD - 1]} command='' i
    # Bash takes the = of --option=value for a word of its own.
    if [[ $word == '=' ]]; then
        word=''
    elif [[ $before == '=' ]]; then
        before=${COMP_WORDS[COMP_CWORD - 2]}
    fi
    # The second number of --within has the option before the first.
    local earlier=''
    ((COMP_CWORD > 2)) && earlier=${COMP_WORDS[COMP_CWORD - 2]}
    [[ $earlier == '=' ]] && earlier=${COMP_WORDS[COMP_CWORD - 3]}
    local commands='sample house hours check run report warm why weather show cut convert help'
    for ((i = 1; i < COMP_CWORD; i++)); do
        if [[ ${COMP_WORDS[i]} != -* && " $commands " == *" ${COMP_WORDS[i]} "* ]]; then
            command=${COMP_WORDS[i]}
            break
        fi
    done

    local options='--help'
    case $command in
        house | convert) options+=' --force' ;;
        hours) options+=' --head --force' ;;
        check | run) options+=' --entry-version --heating-limit --cooling-limit' ;;
        report) options+=' --csv --svg --balance --nodes --head --name --force' ;;
        warm) options+=' --above --within --nearest' ;;
        weather) options+=' --line --csv --dry-bulb --direct --diffuse --head --force' ;;
        show) options+=' --hour --hours --head' ;;
        cut) options+=' --head --force' ;;
        '' | help) options+=' --version' ;;
    esac

    COMPREPLY=()
    if [[ $before == --hour || $before == --line || $before == --name || $before == --heating-limit || $before == --cooling-limit ]]; then
        return
    elif [[ $before == --above || $before == --nearest || $before == --within || $earlier == --within ]]; then
        return
    elif [[ $word == --hour=* || $word == --line=* || $word == --name=* || $word == --entry-version=* || $word == --*-limit=* ]]; then
        return # where = ends no word, there is nothing to offer
    elif [[ $word == --above=* || $word == --nearest=* || $word == --within=* ]]; then
        return
    elif [[ $word == --dry-bulb=* || $word == --direct=* || $word == --diffuse=* ]]; then
        return
    elif [[ $before == --dry-bulb ]]; then
        mapfile -t COMPREPLY < <(compgen -W 'temp_ext_air avg_air_supply_temp temp_ext' -- "$word")
    elif [[ $before == --direct ]]; then
        mapfile -t COMPREPLY < <(compgen -W 'i_sol_dir' -- "$word")
    elif [[ $before == --diffuse ]]; then
        mapfile -t COMPREPLY < <(compgen -W 'i_sol_dif' -- "$word")
    elif [[ $before == --entry-version ]]; then
        mapfile -t COMPREPLY < <(compgen -W '1 2 3' -- "$word")
    elif [[ $word == -* && $before != --csv && $before != --svg && $before != --head ]]; then
        mapfile -t COMPREPLY < <(compgen -W "$options" -- "$word")
    elif [[ -z $command ]]; then
        mapfile -t COMPREPLY < <(compgen -W "$commands" -- "$word")
    elif [[ $command == help ]]; then
        mapfile -t COMPREPLY < <(compgen -W "$commands" -- "$word")
    else
        compopt -o filenames 2> /dev/null
        mapfile -t COMPREPLY < <(compgen -f -- "$word")
    fi
}

complete -F _hem_year hem-year

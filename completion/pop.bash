# Completion of pop for bash; made from the help by `make texts`.
_pop() {
    local word=${COMP_WORDS[COMP_CWORD]} options=
    local words='check show run watch settle play eval compile replay demo net bundle export text explain and or not find refute simulate exact sweep plot draw serve page help build --version --unproved'
    COMPREPLY=()
    if [ "$COMP_CWORD" -eq 1 ] || [ "${COMP_WORDS[1]}" = help ]; then
        mapfile -t COMPREPLY < <(compgen -W "$words" -- "$word")
        return
    fi
    case ${COMP_WORDS[1]} in
        check) options='--twice --with -o --help' ;;
        show) options='--with -o --help' ;;
        run) options='--workers --shards --turns --seed --with -o --help' ;;
        watch) options='--workers --shards --turns --seed --with -o --help' ;;
        settle) options='--with -o --help' ;;
        play) options='--steps --with -o --help' ;;
        eval) options='-o --help' ;;
        compile) options='--succinct --quick --plain --flocks --helpers --text -o --help' ;;
        replay) options='--watched -o --help' ;;
        net) options='--with -o --help' ;;
        bundle) options='--with -o --help' ;;
        export) options='--coq --prism --ppsim --peregrine --sbml --volume --check --chk -o --with --help' ;;
        text) options='--crn --with -o --help' ;;
        explain) options='--all --html --with -o --help' ;;
        and) options='--start -o --help' ;;
        or) options='--start -o --help' ;;
        not) options='-o --help' ;;
        find) options='--seconds --small --jobs -o --write --save --mend --anew --tame --text --with --help' ;;
        refute) options='--agents --seconds --write --with -o --help' ;;
        simulate) options='--seed --until --at --from --volume --graph --rounds --map --changes --predicate --trace --kernel --every --runs --jobs --with -o --help' ;;
        exact) options='--agents --after --fractions --volume --top --predicate --with -o --help' ;;
        sweep) options='--runs --seed --changes --meetings --until --graph --rounds --predicate --by --jobs --hosts --journal --list --chunk --gather --csv --with -o --help' ;;
        plot) options='-o --text --states --log --from --to --size --by --of --ode --phase --over --title --with --help' ;;
        draw) options='-o --dot --text --title --with --help' ;;
        serve) options='--port --help' ;;
        page) options='--seed --trace --title --with -o --help' ;;
    esac
    case $word in -*) mapfile -t COMPREPLY < <(compgen -W "$options" -- "$word") ;; esac
}
complete -o default -F _pop pop

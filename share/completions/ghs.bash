# Completions of ghs for bash.
_ghs() {
    local word=${COMP_WORDS[COMP_CWORD]} before=${COMP_WORDS[COMP_CWORD - 1]}
    COMPREPLY=()
    if [ "$COMP_CWORD" -eq 1 ]; then
        COMPREPLY=($(compgen -W 'tree run replay steps judge sweep view make explore help -h --help -V --version' -- "$word"))
        return
    fi
    case ${COMP_WORDS[1]},$before in
        run,--protocol) COMPREPLY=($(compgen -W 'ghs boruvka echo gather own' -- "$word")) && return ;;
        run,--book) : && return ;;
        run,--check) : && return ;;
        run,--seed) : && return ;;
        run,--schedule) COMPREPLY=($(compgen -W 'seeded patient rounds waits lifo round-robin' -- "$word")) && return ;;
        run,--workers) : && return ;;
        run,--wake) COMPREPLY=($(compgen -W 'all first' -- "$word")) && return ;;
        run,--turns) : && return ;;
        run,--print) COMPREPLY=($(compgen -W 'report trace time' -- "$word")) && return ;;
        replay,--protocol) COMPREPLY=($(compgen -W 'ghs boruvka echo gather own' -- "$word")) && return ;;
        replay,--book) : && return ;;
        replay,--check) : && return ;;
        replay,--wake) COMPREPLY=($(compgen -W 'all first' -- "$word")) && return ;;
        steps,--protocol) COMPREPLY=($(compgen -W 'ghs boruvka echo gather own' -- "$word")) && return ;;
        steps,--book) : && return ;;
        steps,--wake) COMPREPLY=($(compgen -W 'all first' -- "$word")) && return ;;
        steps,--from) : && return ;;
        steps,--to) : && return ;;
        steps,--node) : && return ;;
        judge,--book) : && return ;;
        judge,--wake) COMPREPLY=($(compgen -W 'all first' -- "$word")) && return ;;
        sweep,--protocol) COMPREPLY=($(compgen -W 'ghs boruvka echo gather own' -- "$word")) && return ;;
        sweep,--book) : && return ;;
        sweep,--check) : && return ;;
        sweep,--seeds) : && return ;;
        sweep,--schedule) COMPREPLY=($(compgen -W 'seeded patient rounds waits lifo round-robin' -- "$word")) && return ;;
        sweep,--workers) : && return ;;
        sweep,--wake) COMPREPLY=($(compgen -W 'all first' -- "$word")) && return ;;
        sweep,--turns) : && return ;;
        sweep,--print) COMPREPLY=($(compgen -W 'runs summary chart' -- "$word")) && return ;;
        sweep,--by) COMPREPLY=($(compgen -W 'node level rule' -- "$word")) && return ;;
        view,--protocol) COMPREPLY=($(compgen -W 'ghs boruvka echo gather own' -- "$word")) && return ;;
        view,--book) : && return ;;
        view,--seed) : && return ;;
        view,--seeds) : && return ;;
        view,--schedule) COMPREPLY=($(compgen -W 'seeded patient rounds waits lifo round-robin' -- "$word")) && return ;;
        view,--wake) COMPREPLY=($(compgen -W 'all first' -- "$word")) && return ;;
        view,--turns) : && return ;;
        view,--trace) COMPREPLY=($(compgen -f -- "$word")) && return ;;
        view,--from) : && return ;;
        view,--to) : && return ;;
        make,--seed) : && return ;;
        make,--links) : && return ;;
        make,--weights) COMPREPLY=($(compgen -W 'random rising falling equal' -- "$word")) && return ;;
        explore,--protocol) COMPREPLY=($(compgen -W 'ghs boruvka echo gather own' -- "$word")) && return ;;
        explore,--book) : && return ;;
        explore,--check) : && return ;;
        explore,--wake) COMPREPLY=($(compgen -W 'all first' -- "$word")) && return ;;
        explore,--limit) : && return ;;
        explore,--print) COMPREPLY=($(compgen -W 'report trace' -- "$word")) && return ;;
        explore,--end) : && return ;;
        help,*) COMPREPLY=($(compgen -W 'tree run replay steps judge sweep view make explore help' -- "$word")) && return ;;
    esac
    case ${COMP_WORDS[1]} in
        tree) [[ $word == -* ]] && COMPREPLY=($(compgen -W '--core -h --help' -- "$word")) ;;
        run) [[ $word == -* ]] && COMPREPLY=($(compgen -W '--protocol --book --check --seed --schedule --workers --wake --turns --print --core --progress --tally -h --help' -- "$word")) ;;
        replay) [[ $word == -* ]] && COMPREPLY=($(compgen -W '--protocol --book --check --wake -h --help' -- "$word")) ;;
        steps) [[ $word == -* ]] && COMPREPLY=($(compgen -W '--protocol --book --wake --from --to --node --json -h --help' -- "$word")) ;;
        judge) [[ $word == -* ]] && COMPREPLY=($(compgen -W '--book --wake -h --help' -- "$word")) ;;
        sweep) [[ $word == -* ]] && COMPREPLY=($(compgen -W '--protocol --book --check --seeds --schedule --workers --wake --turns --print --by --names --json --progress -h --help' -- "$word")) ;;
        view) [[ $word == -* ]] && COMPREPLY=($(compgen -W '--protocol --book --seed --seeds --schedule --wake --turns --trace --from --to -h --help' -- "$word")) ;;
        make) [[ $word == -* ]] && COMPREPLY=($(compgen -W '--seed --links --weights -h --help' -- "$word"))
            [[ $word == -* ]] || { [ "$COMP_CWORD" -eq 2 ] && COMPREPLY=($(compgen -W 'path ring star grid complete tree random road forest slow busy farcore chainwake' -- "$word")); return; } ;;
        explore) [[ $word == -* ]] && COMPREPLY=($(compgen -W '--protocol --book --check --wake --limit --print --end --progress -h --help' -- "$word")) ;;
    esac
    [[ $word == -* ]] || COMPREPLY=($(compgen -f -- "$word"))
}
complete -o filenames -F _ghs ghs

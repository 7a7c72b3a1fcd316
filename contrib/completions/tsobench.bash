# Completions of tsobench for bash. Written by tests/compare-help from the texts of help.
_tsobench() {
    local word=${COMP_WORDS[COMP_CWORD]} before=${COMP_WORDS[COMP_CWORD - 1]} command='' words='' files='' i
    # --unit=serial comes as three words
    case $word/$before in
        =/*) word='' ;;
        */=) before=${COMP_WORDS[COMP_CWORD - 2]} ;;
    esac
    for ((i = 1; i < COMP_CWORD; i++)); do
        case ${COMP_WORDS[i]} in
            judge | decide | explain | draw | reduce | batch | log | follow | check | verify | outcomes | replay | run | make | campaign | help)
                command=${COMP_WORDS[i]}
                break
                ;;
        esac
    done
    case $command/$before in
        judge/--workers) ;;
        judge/--nth) ;;
        decide/--effort) ;;
        decide/--workers) ;;
        decide/--nth) ;;
        explain/--effort) ;;
        explain/--workers) ;;
        explain/--nth) ;;
        draw/--edges) words='rules field' ;;
        draw/--effort) ;;
        draw/--workers) ;;
        draw/--nth) ;;
        reduce/--nth) ;;
        batch/--workers) ;;
        batch/--format) words='words json junit' ;;
        batch/--effort) ;;
        batch/--require) ;;
        log/--most) ;;
        log/--effort) ;;
        log/--max-unknown) ;;
        follow/--most) ;;
        follow/--format) words='words json' ;;
        check/--nth) ;;
        verify/--nth) ;;
        outcomes/--limit) ;;
        outcomes/--seen) files=yes ;;
        replay/--unit) words='serial buffer partial newest-first no-forward stale-load torn-swap idle-membar lost-drain' ;;
        replay/--capacity) ;;
        replay/--trigger) ;;
        replay/--workers) ;;
        run/--unit) words='serial buffer partial newest-first no-forward stale-load torn-swap idle-membar lost-drain' ;;
        run/--capacity) ;;
        run/--trigger) ;;
        run/--workers) ;;
        run/--seed) ;;
        run/--drain-turns) ;;
        run/--times) ;;
        make/--model) words='tso pso' ;;
        make/--seed) ;;
        make/--procs) ;;
        make/--ops) ;;
        make/--addrs) ;;
        campaign/--unit) words='serial buffer partial newest-first no-forward stale-load torn-swap idle-membar lost-drain' ;;
        campaign/--capacity) ;;
        campaign/--trigger) ;;
        campaign/--workers) ;;
        campaign/--drain-turns) ;;
        campaign/--model) words='tso pso' ;;
        campaign/--first) ;;
        campaign/--count) ;;
        campaign/--procs) ;;
        campaign/--ops) ;;
        campaign/--addrs) ;;
        /*) words='judge decide explain draw reduce batch log follow check verify outcomes replay run make campaign help -h --help -V --version' ;;
        judge/*) words='--workers --nth --verbose -h --help' files=yes ;;
        decide/*) words='--effort --workers --nth --verbose -h --help' files=yes ;;
        explain/*) words='--decide --effort --workers --nth --verbose -h --help' files=yes ;;
        draw/*) words='--edges --decide --effort --workers --nth --verbose -h --help' files=yes ;;
        reduce/*) words='--nth --verbose -h --help' files=yes ;;
        batch/*) words='--workers --format --quiet --violations --decide --effort --require --progress --verbose -h --help' files=yes ;;
        log/*) words='--most --effort --max-unknown --ended --trace --explain --evidence --decide --progress --verbose -h --help' files=yes ;;
        follow/*) words='--most --explain --format --ended --fail-fast --progress --verbose -h --help' files=yes ;;
        check/*) words='--nth --verbose -h --help' files=yes ;;
        verify/*) words='--log --nth --verbose -h --help' files=yes ;;
        outcomes/*) words='--states --limit --seen --verbose -h --help' files=yes ;;
        replay/*) words='--unit --capacity --trigger --workers --trace --explain --with-trace --verbose -h --help' files=yes ;;
        run/*) words='--unit --capacity --trigger --workers --trace --explain --with-trace --verbose --seed --drain-turns --times -h --help' files=yes ;;
        make/*) words='--schedule --model --seed --procs --ops --addrs -h --help' ;;
        campaign/*) words='--unit --capacity --trigger --workers --replay --drain-turns --trace --progress --model --first --count --procs --ops --addrs -h --help' ;;
        help/*) words='judge decide explain draw reduce batch log follow check verify outcomes replay run make campaign' ;;
    esac
    if [[ -n $files && $word != -* ]]; then
        words=''
        compopt -o default 2>/dev/null
    fi
    mapfile -t COMPREPLY < <(compgen -W "$words" -- "$word")
}
complete -F _tsobench tsobench

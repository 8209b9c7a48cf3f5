# bash completion for incut
_incut() {
    local cur=${COMP_WORDS[COMP_CWORD]} prev=${COMP_WORDS[COMP_CWORD - 1]} command= options word
    for word in "${COMP_WORDS[@]:1:COMP_CWORD-1}"; do
        case $word in scan | why | who | graph | rules | cost | cut | check | pp | help) command=$word && break ;; esac
    done
    # words after -- are a compiler's command
    for word in "${COMP_WORDS[@]:1:COMP_CWORD-1}"; do
        [ "$word" = -- ] && mapfile -t COMPREPLY < <(compgen -f -- "$cur") && return
    done
    case $prev in
        -I | --root | --iquote | --isystem | --idirafter) mapfile -t COMPREPLY < <(compgen -d -- "$cur") && return ;;
        -D | -e | --top | --drop | --exclude | --external | --keep | --only | --from | --to | --most-read | --most-output) return ;;
        --files | --of | --without | --fixed | --costs | --defines | --compiler | --deps | --status | --baseline | --write-baseline) mapfile -t COMPREPLY < <(compgen -f -- "$cur") && return ;;
    esac
    options="--extended --gnu --help"
    case $command in
        '') options="scan why who graph rules cost cut check pp help $options --version" ;;
        help) options="scan why who graph rules cost cut check pp" ;;
        scan) options+=" --format" ;;
        why) options+=" -p --files --root --exclude --follow --null -0 -I --iquote --isystem --idirafter --without --drop --strict --external --quiet -q --fail-if-reached --format --all --max --undefined --from --to" ;;
        graph) options+=" -p --files --root --exclude --follow --null -0 -I --iquote --isystem --idirafter --without --drop --strict --external --quiet -q --undefined --format --from" ;;
        cost) options+=" -p --files --root --exclude --follow --null -0 -I --iquote --isystem --idirafter --without --drop --strict --external --quiet -q --undefined --format --top --of --from --to" ;;
        rules) options+=" -p --files --root --exclude --follow --null -0 -I --iquote --isystem --idirafter --without --drop --strict --external --quiet -q --undefined --format --baseline --write-baseline -e" ;;
        who) options+=" -p --files --root --exclude --follow --null -0 -I --iquote --isystem --idirafter --without --drop --strict --external --quiet -q --fail-if-reached --undefined --from --to --chains --format --max" ;;
        cut) options+=" -p --files --root --exclude --follow --null -0 -I --iquote --isystem --idirafter --without --drop --strict --external --undefined --from --to --fixed --keep --only --costs --quiet -q --blank --patch --format --all --max" ;;
        check) options+=" -p --files --root --exclude --follow --null -0 -I --iquote --isystem --idirafter --without --drop --strict --external --undefined --from --to --fixed --keep --only --costs --quiet -q" ;;
        pp) options+=" -p --files --root --exclude --follow --null -0 -I --iquote --isystem --idirafter --without --quiet -q -D --defines --compiler --missing-empty --lines --most-read --most-output --deps --status" ;;
    esac
    mapfile -t COMPREPLY < <(compgen -W "$options" -- "$cur")
    case $command:$cur in
        :* | help:* | *:-*) ;;
        *) mapfile -t COMPREPLY < <(compgen -f -- "$cur") ;;
    esac
}
complete -o filenames -F _incut incut

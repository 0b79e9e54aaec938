# Completion of bus629-view for bash.
_bus629_view() {
  local word=${COMP_WORDS[COMP_CWORD]}
  case $COMP_CWORD:${COMP_WORDS[1]} in
    1:*) mapfile -t COMPREPLY < <(compgen -W "vcd wires timers gtkw svg cycles page --help --version" -- "$word") ;;
    2:vcd|2:wires|2:timers|2:gtkw|2:svg|2:cycles|2:page) mapfile -t COMPREPLY < <(compgen -f -- "$word") ;;
    3:vcd|3:wires|3:timers|3:gtkw|3:svg|3:cycles) mapfile -t COMPREPLY < <(compgen -f -- "$word") ;;
    *:vcd) mapfile -t COMPREPLY < <(compgen -W "--from --to" -- "$word") ;;
    *:wires) mapfile -t COMPREPLY < <(compgen -W "--from --to" -- "$word") ;;
    *:timers) mapfile -t COMPREPLY < <(compgen -W "--from --to" -- "$word") ;;
    *:gtkw) mapfile -t COMPREPLY < <(compgen -W "--from --to" -- "$word") ;;
    *:svg) mapfile -t COMPREPLY < <(compgen -W "--delay --jitter --clocks --from --to" -- "$word") ;;
    *:cycles) mapfile -t COMPREPLY < <(compgen -W "--delay --jitter --clocks --from --to" -- "$word") ;;
    *:page) mapfile -t COMPREPLY < <(compgen -W "--delay --jitter --clocks" -- "$word") ;;
  esac
}
complete -o filenames -F _bus629_view bus629-view

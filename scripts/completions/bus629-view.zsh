#compdef bus629-view
# Completion of bus629-view for zsh.
_bus629_view() {
  local -a commands
  commands=(
    'vcd:the dump of the trace in the file R, on the table in the file T'
    'wires:its signals of one bit alone'
    'timers:the dump with the timers of each sender, and where it may start'
    'gtkw:the save file with which GTKWave shows all signals of any of these dumps'
    'svg:the trace as a time line, with a lane for each terminal'
    'cycles:a row for each cycle, for long traces'
    'page:the page on the table in the file T, without any trace'
    '--help:this text'
    '--version:the version of the program, and of each text that it reads'
  )
  case $CURRENT:$words[2] in
    2:*) _describe command commands ;;
    3:vcd|3:wires|3:timers|3:gtkw|3:svg|3:cycles|3:page) _files ;;
    4:vcd|4:wires|4:timers|4:gtkw|4:svg|4:cycles) _files ;;
    *:vcd) compadd -- --from --to ;;
    *:wires) compadd -- --from --to ;;
    *:timers) compadd -- --from --to ;;
    *:gtkw) compadd -- --from --to ;;
    *:svg) compadd -- --delay --jitter --clocks --from --to ;;
    *:cycles) compadd -- --delay --jitter --clocks --from --to ;;
    *:page) compadd -- --delay --jitter --clocks ;;
  esac
}
_bus629_view "$@"

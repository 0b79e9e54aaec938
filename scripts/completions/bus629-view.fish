# Completion of bus629-view for fish.
complete -c bus629-view -f
complete -c bus629-view -n 'test (count (commandline -opc)) -eq 1' -a vcd -d 'the dump of the trace in the file R, on the table in the file T'
complete -c bus629-view -n 'test (count (commandline -opc)) -eq 1' -a wires -d 'its signals of one bit alone'
complete -c bus629-view -n 'test (count (commandline -opc)) -eq 1' -a timers -d 'the dump with the timers of each sender, and where it may start'
complete -c bus629-view -n 'test (count (commandline -opc)) -eq 1' -a gtkw -d 'the save file with which GTKWave shows all signals of any of these dumps'
complete -c bus629-view -n 'test (count (commandline -opc)) -eq 1' -a svg -d 'the trace as a time line, with a lane for each terminal'
complete -c bus629-view -n 'test (count (commandline -opc)) -eq 1' -a cycles -d 'a row for each cycle, for long traces'
complete -c bus629-view -n 'test (count (commandline -opc)) -eq 1' -a page -d 'the page on the table in the file T, without any trace'
complete -c bus629-view -n 'test (count (commandline -opc)) -eq 1' -a --help -d 'this text'
complete -c bus629-view -n 'test (count (commandline -opc)) -eq 1' -a --version -d 'the version of the program, and of each text that it reads'
complete -c bus629-view -n '__fish_seen_subcommand_from vcd wires timers gtkw svg cycles page; and test (count (commandline -opc)) -eq 2' -F
complete -c bus629-view -n '__fish_seen_subcommand_from vcd wires timers gtkw svg cycles; and test (count (commandline -opc)) -eq 3' -F
complete -c bus629-view -n '__fish_seen_subcommand_from vcd' -l from -x
complete -c bus629-view -n '__fish_seen_subcommand_from vcd' -l to -x
complete -c bus629-view -n '__fish_seen_subcommand_from wires' -l from -x
complete -c bus629-view -n '__fish_seen_subcommand_from wires' -l to -x
complete -c bus629-view -n '__fish_seen_subcommand_from timers' -l from -x
complete -c bus629-view -n '__fish_seen_subcommand_from timers' -l to -x
complete -c bus629-view -n '__fish_seen_subcommand_from gtkw' -l from -x
complete -c bus629-view -n '__fish_seen_subcommand_from gtkw' -l to -x
complete -c bus629-view -n '__fish_seen_subcommand_from svg' -l delay -x
complete -c bus629-view -n '__fish_seen_subcommand_from svg' -l jitter -x
complete -c bus629-view -n '__fish_seen_subcommand_from svg' -l clocks -x
complete -c bus629-view -n '__fish_seen_subcommand_from svg' -l from -x
complete -c bus629-view -n '__fish_seen_subcommand_from svg' -l to -x
complete -c bus629-view -n '__fish_seen_subcommand_from cycles' -l delay -x
complete -c bus629-view -n '__fish_seen_subcommand_from cycles' -l jitter -x
complete -c bus629-view -n '__fish_seen_subcommand_from cycles' -l clocks -x
complete -c bus629-view -n '__fish_seen_subcommand_from cycles' -l from -x
complete -c bus629-view -n '__fish_seen_subcommand_from cycles' -l to -x
complete -c bus629-view -n '__fish_seen_subcommand_from page' -l delay -x
complete -c bus629-view -n '__fish_seen_subcommand_from page' -l jitter -x
complete -c bus629-view -n '__fish_seen_subcommand_from page' -l clocks -x

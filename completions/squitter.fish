# Completion of squitter for fish. man/make writes this file from the help texts.

complete -c squitter -f
complete -c squitter -n __fish_use_subcommand -l version -d 'Print version'
complete -c squitter -n __fish_use_subcommand -l help -d 'Print help'
complete -c squitter -n __fish_use_subcommand -a show -d 'Shows the fields of one frame, one on each line'
complete -c squitter -n __fish_use_subcommand -a encode -d 'Encodes a position as a frame, rounded as the standard\'s encoder rounds it'
complete -c squitter -n __fish_use_subcommand -a local -d 'Decodes the position of one frame near a reference position'
complete -c squitter -n __fish_use_subcommand -a pair -d 'Decodes the position of the newer of two frames, one even and one odd'
complete -c squitter -n __fish_use_subcommand -a check -d 'Reads frames from standard input, one on each line, and prints each frame\'s fields or its error'
complete -c squitter -n __fish_use_subcommand -a track -d 'Reads a log from standard input, \'MILLISECONDS FRAME\' on each line, and prints each position'
complete -c squitter -n __fish_use_subcommand -a feed -d 'Reads a receiver\'s bytes from standard input, and prints a log for \'squitter track\''
complete -c squitter -n __fish_use_subcommand -a help -d 'Print help'

complete -c squitter -n '__fish_seen_subcommand_from help; and not __fish_seen_subcommand_from show encode local pair check track feed' -a show -d 'Shows the fields of one frame, one on each line'
complete -c squitter -n '__fish_seen_subcommand_from help; and not __fish_seen_subcommand_from show encode local pair check track feed' -a encode -d 'Encodes a position as a frame, rounded as the standard\'s encoder rounds it'
complete -c squitter -n '__fish_seen_subcommand_from help; and not __fish_seen_subcommand_from show encode local pair check track feed' -a local -d 'Decodes the position of one frame near a reference position'
complete -c squitter -n '__fish_seen_subcommand_from help; and not __fish_seen_subcommand_from show encode local pair check track feed' -a pair -d 'Decodes the position of the newer of two frames, one even and one odd'
complete -c squitter -n '__fish_seen_subcommand_from help; and not __fish_seen_subcommand_from show encode local pair check track feed' -a check -d 'Reads frames from standard input, one on each line, and prints each frame\'s fields or its error'
complete -c squitter -n '__fish_seen_subcommand_from help; and not __fish_seen_subcommand_from show encode local pair check track feed' -a track -d 'Reads a log from standard input, \'MILLISECONDS FRAME\' on each line, and prints each position'
complete -c squitter -n '__fish_seen_subcommand_from help; and not __fish_seen_subcommand_from show encode local pair check track feed' -a feed -d 'Reads a receiver\'s bytes from standard input, and prints a log for \'squitter track\''

complete -c squitter -n '__fish_seen_subcommand_from show' -l help -d 'Print help'

complete -c squitter -n '__fish_seen_subcommand_from encode' -l kind -x -a 'air ground' -d 'In the air or on the ground'
complete -c squitter -n '__fish_seen_subcommand_from encode' -l parity -x -a 'even odd' -d 'The format (F bit)'
complete -c squitter -n '__fish_seen_subcommand_from encode' -l address -x -d 'The ICAO address, six hexadecimal digits'
complete -c squitter -n '__fish_seen_subcommand_from encode' -l feet -x -d 'The altitude in feet'
complete -c squitter -n '__fish_seen_subcommand_from encode' -l lat -x -d 'The latitude in degrees'
complete -c squitter -n '__fish_seen_subcommand_from encode' -l lon -x -d 'The longitude in degrees'
complete -c squitter -n '__fish_seen_subcommand_from encode' -l help -d 'Print help'

complete -c squitter -n '__fish_seen_subcommand_from local' -l lat -x -d 'The reference\'s latitude in degrees'
complete -c squitter -n '__fish_seen_subcommand_from local' -l lon -x -d 'The reference\'s longitude in degrees'
complete -c squitter -n '__fish_seen_subcommand_from local' -l help -d 'Print help'

complete -c squitter -n '__fish_seen_subcommand_from pair' -l lat -x -d 'The receiver\'s latitude in degrees'
complete -c squitter -n '__fish_seen_subcommand_from pair' -l lon -x -d 'The receiver\'s longitude in degrees'
complete -c squitter -n '__fish_seen_subcommand_from pair' -l help -d 'Print help'

complete -c squitter -n '__fish_seen_subcommand_from check' -l format -x -a 'lines csv json' -d 'The output format'
complete -c squitter -n '__fish_seen_subcommand_from check' -l help -d 'Print help'

complete -c squitter -n '__fish_seen_subcommand_from track' -l format -x -a 'lines csv json' -d 'The output format'
complete -c squitter -n '__fish_seen_subcommand_from track' -l limit -x -d 'The most aircraft at once'
complete -c squitter -n '__fish_seen_subcommand_from track' -l window -x -d 'The greatest age in milliseconds of a frame to pair or a fix to follow'
complete -c squitter -n '__fish_seen_subcommand_from track' -l lat -x -d 'The receiver\'s latitude in degrees'
complete -c squitter -n '__fish_seen_subcommand_from track' -l lon -x -d 'The receiver\'s longitude in degrees'
complete -c squitter -n '__fish_seen_subcommand_from track' -l help -d 'Print help'

complete -c squitter -n '__fish_seen_subcommand_from feed' -l format -x -a 'auto beast avr csv log' -d 'The input format'
complete -c squitter -n '__fish_seen_subcommand_from feed' -l reorder -x -d 'Sort the lines by time, where frames come up to MS milliseconds late'
complete -c squitter -n '__fish_seen_subcommand_from feed' -l leap -x -d 'A time that goes ahead by more than MS milliseconds is a jump'
complete -c squitter -n '__fish_seen_subcommand_from feed' -l arrival -d 'Ignore the receiver\'s clock'
complete -c squitter -n '__fish_seen_subcommand_from feed' -l all -d 'Print frames of all downlink formats, not only extended squitters'
complete -c squitter -n '__fish_seen_subcommand_from feed' -l help -d 'Print help'

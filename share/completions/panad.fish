# Completions of panad for fish.

function __panad_after
    __fish_seen_subcommand_from $argv
end

# The folders behind DEVICE=.
function __panad_roots
    set -l word (commandline -ct)
    if string match -q '*=*' -- $word
        set -l device (string replace -r '=.*' '' -- $word)
        __fish_complete_directories (string replace -r '^[^=]*=' '' -- $word) | string replace -r '^' "$device="
    end
end

complete -c panad -f
complete -c panad -n __fish_use_subcommand -l version -d 'Print the version'
complete -c panad -l help -d 'Print help'
complete -c panad -n __fish_use_subcommand -a run -d 'Answer the lines on standard input'
complete -c panad -n __fish_use_subcommand -a show -d 'Print a table of the copies of each file'
complete -c panad -n __fish_use_subcommand -a load -d 'Load a dump of a journal, and print its tables'
complete -c panad -n __fish_use_subcommand -a scan -d 'Print the lines that register all files of a folder'
complete -c panad -n __fish_use_subcommand -a compare -d 'Print how two stamps relate'
complete -c panad -n __fish_use_subcommand -a track -d 'Track folders by contents'
complete -c panad -n __fish_use_subcommand -a status -d 'Print what is obsolete or in conflict'
complete -c panad -n __fish_use_subcommand -a may-overwrite -d 'Print whether a copy may be overwritten with another one'
complete -c panad -n __fish_use_subcommand -a why -d 'Print what each of two copies knows that the other lacks'
complete -c panad -n __fish_use_subcommand -a history -d 'Print all that was reported of a file'
complete -c panad -n __fish_use_subcommand -a report -d 'Report one change of copies that are named by their places'
complete -c panad -n __fish_use_subcommand -a watch -d 'Print each entry of a daemon as it comes'
complete -c panad -n __fish_use_subcommand -a serve -d 'Answer lines over TCP, and look at folders'
complete -c panad -n __fish_use_subcommand -a log -d 'Move a journal between a file and etcd'
complete -c panad -n '__panad_after run show track status may-overwrite why history report serve' -l journal -r -F -d 'The file that keeps the reports'
complete -c panad -n '__panad_after run show track status may-overwrite why history report serve' -l log -x -d 'A journal in etcd'
complete -c panad -n '__panad_after run show track status may-overwrite why history report serve log' -l patience -x -d 'Time for an answer of the journal in etcd'
complete -c panad -n '__panad_after run serve' -l stale -d 'Answer questions by the journal in etcd as it was a moment ago'
complete -c panad -n '__panad_after log' -a copy
complete -c panad -n '__panad_after log' -l from -r -F -d 'The journal that is read'
complete -c panad -n '__panad_after log' -l to -r -F -d 'The journal that is made'
complete -c panad -n '__panad_after show load' -F
complete -c panad -n '__panad_after scan' -a '(__fish_complete_directories)'
complete -c panad -n '__panad_after show track status may-overwrite why history report watch' -l port -x -d 'Speak to the daemon on this port'
complete -c panad -n '__panad_after history' -l svg -r -F -d 'Draw a picture to this file'
complete -c panad -n '__panad_after track' -l sums -r -F -d 'The file that keeps sums of files'
complete -c panad -n '__panad_after track' -l empty -d 'Take an empty folder as meant'
complete -c panad -n '__panad_after track' -l read-all -d 'Read all files'
complete -c panad -n '__panad_after scan track' -l verbose -d 'Name what is passed over'
complete -c panad -n '__panad_after status' -l all -d 'List the newest copies too'
complete -c panad -n '__panad_after track status' -l quiet -d 'Print no table'
complete -c panad -n '__panad_after track status' -l json -d 'Print a line of JSON for each copy'
complete -c panad -n '__panad_after report' -a 'register duplicate edit reconcile merge relocate remove note confirm withdraw found missing'
complete -c panad -n '__panad_after may-overwrite report' -l by -x -d 'The place of the other copy, or the device that reports'
complete -c panad -n '__panad_after show' -l family -x -d 'Print the table of this family'
complete -c panad -n '__panad_after show' -l split -d 'Print the tables of families in conflict'
complete -c panad -n '__panad_after report' -l sum -x -d 'The SHA-256 of the bytes'
complete -c panad -n '__panad_after report' -l heir -x -d 'The place of the heir'
complete -c panad -n '__panad_after watch' -l from -x -d 'Begin with this entry'
complete -c panad -n '__panad_after serve' -l port -x -d 'The port of 127.0.0.1'
complete -c panad -n '__panad_after serve' -l sessions -x -d 'End after so many sessions'
complete -c panad -n '__panad_after serve' -l track -d 'Track folders by contents'
complete -c panad -n '__panad_after serve' -l every -x -d 'Look again after so many seconds'
complete -c panad -n '__panad_after serve' -l hurry -x -d 'Time to a first line while others wait'
complete -c panad -n '__panad_after serve' -l idle -x -d 'Time to a further line while others wait'
complete -c panad -n '__panad_after track serve' -l ignore -x -d 'Pass over paths that match'
complete -c panad -n '__panad_after track serve' -l one-file-system -d 'Enter no folder of another file system'
complete -c panad -n '__panad_after track serve' -a '(__panad_roots)'

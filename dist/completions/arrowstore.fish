# Completions of arrowstore for fish, made of its help.
complete -c arrowstore -f
complete -c arrowstore -n __fish_use_subcommand -s h -l help -d 'Print help'
complete -c arrowstore -n __fish_use_subcommand -l version -d 'The version'
complete -c arrowstore -n __fish_use_subcommand -a format -d 'Makes a file of the given number of sectors, with an empty store in it'
complete -c arrowstore -n __fish_use_subcommand -a create -d 'Makes a table without rows'
complete -c arrowstore -n __fish_use_subcommand -a import -d 'Reads an Arrow IPC stream from standard input, and stores it as the table NAME, which it replaces if it exists'
complete -c arrowstore -n __fish_use_subcommand -a append -d 'Reads rows from standard input, and appends them to a table'
complete -c arrowstore -n __fish_use_subcommand -a query -d 'Prints the rows of a table that meet all conditions, each as a line of JSON'
complete -c arrowstore -n __fish_use_subcommand -a export -d 'Writes a table as an Arrow IPC stream to standard output'
complete -c arrowstore -n __fish_use_subcommand -a rename -d 'Gives a table another name'
complete -c arrowstore -n __fish_use_subcommand -a drop -d 'Removes a table with all its rows'
complete -c arrowstore -n __fish_use_subcommand -a apply -d 'Applies the lines of a script as one commit: all of them, or none'
complete -c arrowstore -n __fish_use_subcommand -a tables -d 'Prints a line for each table: its name and its number of rows'
complete -c arrowstore -n __fish_use_subcommand -a schema -d 'Prints a line for each field of a table'
complete -c arrowstore -n __fish_use_subcommand -a check -d 'Makes sure that the last change is on the disk, reads all tables, and prints ok if all can be read'
complete -c arrowstore -n __fish_use_subcommand -a salvage -d 'Writes the readable rows of a damaged table as an Arrow IPC stream, and reports what is left out'
complete -c arrowstore -n __fish_use_subcommand -a info -d 'Prints the size of the store, its free sectors, and other numbers'
complete -c arrowstore -n __fish_use_subcommand -a compact -d 'Merges small segments, moves the last ones forward, and prints the number of steps'
complete -c arrowstore -n __fish_use_subcommand -a upgrade -d 'Adds a digest to each segment of a store of version 1, and makes it version 2'
complete -c arrowstore -n __fish_use_subcommand -a copy -d 'Copies all tables of a store into a new store of the given number of sectors'
complete -c arrowstore -n __fish_use_subcommand -a have -d 'Prints the digest of each segment, a line each'
complete -c arrowstore -n __fish_use_subcommand -a send -d 'Writes an archive of all tables to standard output, without the segments that its receiver has'
complete -c arrowstore -n __fish_use_subcommand -a receive -d 'Reads an archive from standard input, and makes its tables those of the store in one commit'
complete -c arrowstore -n __fish_use_subcommand -a replay -d 'Plays a script on a device in memory that fails or stops, and prints what a crash leaves'
complete -c arrowstore -n __fish_use_subcommand -a recode -d 'Reads an Arrow IPC stream from standard input, and writes the same rows as a stream in canonical form'
complete -c arrowstore -n __fish_use_subcommand -a help -d 'Print this message or the help of the given command'
complete -c arrowstore -n '__fish_seen_subcommand_from format; and test (count (commandline -opc)) -eq 2' -F
complete -c arrowstore -n '__fish_seen_subcommand_from format' -l wait -d 'Waits for other commands on the store, instead of being refused'
complete -c arrowstore -n '__fish_seen_subcommand_from format' -l format-version -x -d 'The version of the store: 2, with a digest of each segment, is the default; 1 is without digests'
complete -c arrowstore -n '__fish_seen_subcommand_from format' -l over -d 'Makes the store over whatever is on a block device, even over a store'
complete -c arrowstore -n '__fish_seen_subcommand_from format' -s h -l help -d 'Print help'
complete -c arrowstore -n '__fish_seen_subcommand_from create; and test (count (commandline -opc)) -eq 2' -F
complete -c arrowstore -n '__fish_seen_subcommand_from create' -l wait -d 'Waits for other commands on the store, instead of being refused'
complete -c arrowstore -n '__fish_seen_subcommand_from create' -l like -x -d 'Takes the fields of this table of the store, with its metadata, instead of a FIELD'
complete -c arrowstore -n '__fish_seen_subcommand_from create' -s h -l help -d 'Print help'
complete -c arrowstore -n '__fish_seen_subcommand_from import; and test (count (commandline -opc)) -eq 2' -F
complete -c arrowstore -n '__fish_seen_subcommand_from import' -l wait -d 'Waits for other commands on the store, instead of being refused'
complete -c arrowstore -n '__fish_seen_subcommand_from import' -l new -d 'Replaces no table: the name of a table is refused before the input is read'
complete -c arrowstore -n '__fish_seen_subcommand_from import' -l complete -d 'Refuses a stream without its end-of-stream marker, as one whose writer ended early; not for CSV and JSON Lines'
complete -c arrowstore -n '__fish_seen_subcommand_from import' -s h -l help -d 'Print help'
complete -c arrowstore -n '__fish_seen_subcommand_from append; and test (count (commandline -opc)) -eq 2' -F
complete -c arrowstore -n '__fish_seen_subcommand_from append' -l wait -d 'Waits for other commands on the store, instead of being refused'
complete -c arrowstore -n '__fish_seen_subcommand_from append' -l as -x -a 'stream csv jsonl' -d 'The form of the input: csv begins with a line of the names of the columns, jsonl has a row on each line'
complete -c arrowstore -n '__fish_seen_subcommand_from append' -l null -x -d 'In CSV, the text that means null in a column that allows nulls; by default the empty text; ignored in other forms; write --null=TEXT if it begins with a hyphen'
complete -c arrowstore -n '__fish_seen_subcommand_from append' -l dates -x -a 'number iso' -d 'How dates and timestamps stand in CSV and JSON Lines: number is the number of days, seconds, .. since 1970-01-01; iso is as in 2026-11-30 or 2026-11-30T12:34:56Z'
complete -c arrowstore -n '__fish_seen_subcommand_from append' -l complete -d 'Refuses a stream without its end-of-stream marker, as one whose writer ended early; not for CSV and JSON Lines'
complete -c arrowstore -n '__fish_seen_subcommand_from append' -s h -l help -d 'Print help'
complete -c arrowstore -n '__fish_seen_subcommand_from query; and test (count (commandline -opc)) -eq 2' -F
complete -c arrowstore -n '__fish_seen_subcommand_from query' -l wait -d 'Waits for other commands on the store, instead of being refused'
complete -c arrowstore -n '__fish_seen_subcommand_from query' -l columns -x -d 'The columns, in this order; by default all columns'
complete -c arrowstore -n '__fish_seen_subcommand_from query' -l limit -x -d 'The maximum number of rows'
complete -c arrowstore -n '__fish_seen_subcommand_from query' -l save -x -d 'Saves the rows as a new table NEW, instead of printing them'
complete -c arrowstore -n '__fish_seen_subcommand_from query' -l objects -d 'Prints each row as an object with the names of the columns, which must all differ'
complete -c arrowstore -n '__fish_seen_subcommand_from query' -l dates -x -a 'number iso' -d 'How dates and timestamps stand in the conditions and in the lines: number, the default, is the number of days, seconds, .. since 1970-01-01; iso is as in 2026-11-30 or 2026-11-30T12:34:56Z'
complete -c arrowstore -n '__fish_seen_subcommand_from query' -s h -l help -d 'Print help'
complete -c arrowstore -n '__fish_seen_subcommand_from export; and test (count (commandline -opc)) -eq 2' -F
complete -c arrowstore -n '__fish_seen_subcommand_from export' -l wait -d 'Waits for other commands on the store, instead of being refused'
complete -c arrowstore -n '__fish_seen_subcommand_from export' -s h -l help -d 'Print help'
complete -c arrowstore -n '__fish_seen_subcommand_from rename; and test (count (commandline -opc)) -eq 2' -F
complete -c arrowstore -n '__fish_seen_subcommand_from rename' -l wait -d 'Waits for other commands on the store, instead of being refused'
complete -c arrowstore -n '__fish_seen_subcommand_from rename' -s h -l help -d 'Print help'
complete -c arrowstore -n '__fish_seen_subcommand_from drop; and test (count (commandline -opc)) -eq 2' -F
complete -c arrowstore -n '__fish_seen_subcommand_from drop' -l wait -d 'Waits for other commands on the store, instead of being refused'
complete -c arrowstore -n '__fish_seen_subcommand_from drop' -s h -l help -d 'Print help'
complete -c arrowstore -n '__fish_seen_subcommand_from apply; and test (count (commandline -opc)) -eq 2' -F
complete -c arrowstore -n '__fish_seen_subcommand_from apply' -l wait -d 'Waits for other commands on the store, instead of being refused'
complete -c arrowstore -n '__fish_seen_subcommand_from apply' -s h -l help -d 'Print help'
complete -c arrowstore -n '__fish_seen_subcommand_from tables; and test (count (commandline -opc)) -eq 2' -F
complete -c arrowstore -n '__fish_seen_subcommand_from tables' -l wait -d 'Waits for other commands on the store, instead of being refused'
complete -c arrowstore -n '__fish_seen_subcommand_from tables' -s h -l help -d 'Print help'
complete -c arrowstore -n '__fish_seen_subcommand_from schema; and test (count (commandline -opc)) -eq 2' -F
complete -c arrowstore -n '__fish_seen_subcommand_from schema' -l wait -d 'Waits for other commands on the store, instead of being refused'
complete -c arrowstore -n '__fish_seen_subcommand_from schema' -l fields -d 'Prints each field as create takes it, or refuses if a field can\'t be typed in'
complete -c arrowstore -n '__fish_seen_subcommand_from schema' -s h -l help -d 'Print help'
complete -c arrowstore -n '__fish_seen_subcommand_from check; and test (count (commandline -opc)) -eq 2' -F
complete -c arrowstore -n '__fish_seen_subcommand_from check' -l wait -d 'Waits for other commands on the store, instead of being refused'
complete -c arrowstore -n '__fish_seen_subcommand_from check' -s h -l help -d 'Print help'
complete -c arrowstore -n '__fish_seen_subcommand_from salvage; and test (count (commandline -opc)) -eq 2' -F
complete -c arrowstore -n '__fish_seen_subcommand_from salvage' -l wait -d 'Waits for other commands on the store, instead of being refused'
complete -c arrowstore -n '__fish_seen_subcommand_from salvage' -s h -l help -d 'Print help'
complete -c arrowstore -n '__fish_seen_subcommand_from info; and test (count (commandline -opc)) -eq 2' -F
complete -c arrowstore -n '__fish_seen_subcommand_from info' -l wait -d 'Waits for other commands on the store, instead of being refused'
complete -c arrowstore -n '__fish_seen_subcommand_from info' -l json -d 'Prints one JSON object on one line'
complete -c arrowstore -n '__fish_seen_subcommand_from info' -s h -l help -d 'Print help'
complete -c arrowstore -n '__fish_seen_subcommand_from compact; and test (count (commandline -opc)) -eq 2' -F
complete -c arrowstore -n '__fish_seen_subcommand_from compact' -l wait -d 'Waits for other commands on the store, instead of being refused'
complete -c arrowstore -n '__fish_seen_subcommand_from compact' -l steps -x -d 'The maximum number of steps; without it there are steps until nothing is left to do'
complete -c arrowstore -n '__fish_seen_subcommand_from compact' -s h -l help -d 'Print help'
complete -c arrowstore -n '__fish_seen_subcommand_from upgrade; and test (count (commandline -opc)) -eq 2' -F
complete -c arrowstore -n '__fish_seen_subcommand_from upgrade' -l wait -d 'Waits for other commands on the store, instead of being refused'
complete -c arrowstore -n '__fish_seen_subcommand_from upgrade' -s h -l help -d 'Print help'
complete -c arrowstore -n '__fish_seen_subcommand_from copy; and test (count (commandline -opc)) -eq 2' -F
complete -c arrowstore -n '__fish_seen_subcommand_from copy' -l wait -d 'Waits for other commands on the store, instead of being refused'
complete -c arrowstore -n '__fish_seen_subcommand_from copy' -s h -l help -d 'Print help'
complete -c arrowstore -n '__fish_seen_subcommand_from have; and test (count (commandline -opc)) -eq 2' -F
complete -c arrowstore -n '__fish_seen_subcommand_from have' -l wait -d 'Waits for other commands on the store, instead of being refused'
complete -c arrowstore -n '__fish_seen_subcommand_from have' -s h -l help -d 'Print help'
complete -c arrowstore -n '__fish_seen_subcommand_from send; and test (count (commandline -opc)) -eq 2' -F
complete -c arrowstore -n '__fish_seen_subcommand_from send' -l wait -d 'Waits for other commands on the store, instead of being refused'
complete -c arrowstore -n '__fish_seen_subcommand_from send' -l have -x -d 'The digests of the segments that the receiver has, as have prints them: these segments are left out; - reads them from standard input'
complete -c arrowstore -n '__fish_seen_subcommand_from send' -s h -l help -d 'Print help'
complete -c arrowstore -n '__fish_seen_subcommand_from receive; and test (count (commandline -opc)) -eq 2' -F
complete -c arrowstore -n '__fish_seen_subcommand_from receive' -l wait -d 'Waits for other commands on the store, instead of being refused'
complete -c arrowstore -n '__fish_seen_subcommand_from receive' -l delete -d 'Drops the tables that are not in the archive'
complete -c arrowstore -n '__fish_seen_subcommand_from receive' -s h -l help -d 'Print help'
complete -c arrowstore -n '__fish_seen_subcommand_from replay; and test (count (commandline -opc)) -eq 2' -F
complete -c arrowstore -n '__fish_seen_subcommand_from replay' -l sectors -x -d 'The number of sectors of the device, of 512 bytes each, 16 to 4194304'
complete -c arrowstore -n '__fish_seen_subcommand_from replay' -l fail -x -d 'The write or sync that fails once, counted from 1; 0, the default, means none'
complete -c arrowstore -n '__fish_seen_subcommand_from replay' -l stop -x -d 'The write or sync in which the device stops, counted from 1; 0, the default, means none'
complete -c arrowstore -n '__fish_seen_subcommand_from replay' -l choice -x -d 'What the crash leaves of sectors that are not yet synced: old, new, lost, N (new where a bit of N is 1) or lost:N (lost where a bit of N is 1)'
complete -c arrowstore -n '__fish_seen_subcommand_from replay' -l format-version -x -d 'The version of the store: 2, with a digest of each segment, is the default; 1 is without digests'
complete -c arrowstore -n '__fish_seen_subcommand_from replay' -s h -l help -d 'Print help'
complete -c arrowstore -n '__fish_seen_subcommand_from recode' -s h -l help -d 'Print help'
complete -c arrowstore -n '__fish_seen_subcommand_from help' -a 'format create import append query export rename drop apply tables schema check salvage info compact upgrade copy have send receive replay recode refusals F1 F2 F3 F4 F5 F6 F7 F8 F9 F10 F11 F12 F13 F14 F15 F16 F17 F18 F19 F20 F21 F22 F23 F24 F25 F26 F27 F28 F29 F30 G1 G2 G3 C1 C3 C4 P1 P2 P3 A1 A2 A3 A4 X1 X2 X3 X4 X5 X6 X7 X8 X9 X10 X11 X12 X13 X14 X15 X16 X17 X18 X19 Q1 Q2 Q3 S1 S2 S3 S4 S5 S6 S7 S8 S9 S10 S12 S13 S15 T1 OutOfMemory'
